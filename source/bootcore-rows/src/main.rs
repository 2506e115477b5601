//! Answers the rows of standard input. A row's call is made, and the line is written with the call's own answer in place of the
//! one that stands there; README.md has the language of rows.
#![forbid(unsafe_code)]

mod calls;
mod entries;
mod menus;
mod pieces;
mod refusing;
mod row;
mod session;
mod sweep;
mod words;

use std::io::{self, BufRead, BufWriter, Error, ErrorKind, Write};

fn main() -> io::Result<()> {
    if std::env::args_os().len() > 1 {
        return Err(Error::new(ErrorKind::InvalidInput, "usage: bootcore-rows <ROWS"));
    }
    let mut session = session::Session::new();
    let mut out = BufWriter::new(io::stdout().lock());
    for line in io::stdin().lock().lines() {
        writeln!(out, "{}", session.answer_line(&line?))?;
    }
    out.flush()
}
