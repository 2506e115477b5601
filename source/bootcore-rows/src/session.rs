//! What earlier lines leave for later ones, and what is written for a line.

use crate::pieces::Names;
use crate::refusing::Refusing;
use crate::row::{Answered, Stop};
use crate::sweep::{self, read_way};
use crate::words::{cut, first_word};

/// What earlier lines leave.
pub struct Session {
    /// A heap that refuses nothing.
    pub beside: Refusing,
    /// The words of the last machine that was accepted, or none.
    pub machine: String,
    names: Names,
    /// The name of the text whose lines may follow.
    text: String,
}

impl Session {
    /// No names and no machine.
    pub fn new() -> Session {
        Session { beside: Refusing::new(0), machine: String::new(), names: Names::default(), text: String::new() }
    }

    /// The bytes of these words.
    pub fn bytes(&self, words: &str) -> Answered<Vec<u8>> {
        self.names.bytes(words)
    }

    /// `let NAME = PIECE ..`, without the first word.
    fn name_bytes(&mut self, line: &str) -> Answered {
        let (name, words) = cut(line, "=")?;
        let bytes = self.bytes(words)?;
        self.names.insert(name.trim(), bytes);
        Ok(())
    }

    fn begin_text(&mut self, name: &str) {
        self.text = name.to_owned();
        self.names.insert(name, Vec::new());
    }

    /// Appends a line, and its line feed, to the text that was begun last.
    fn add_line(&mut self, line: &str) -> Answered {
        let text = self.names.get_mut(&self.text).ok_or(Stop::BadRow)?;
        text.extend_from_slice(line.as_bytes());
        text.push(b'\n');
        Ok(())
    }

    /// What a row's call answers. The words of a machine are kept whose last answer is that it was accepted.
    fn answer_call(&mut self, words: &str) -> Answered<String> {
        let (way, call) = read_way(words)?;
        let answer = sweep::answer(self, way, call)?;
        match first_word(call) {
            ("machine", words) if answer.ends_with("ok") => self.machine = words.to_owned(),
            _ => {}
        }
        Ok(answer)
    }

    /// The line of a row, with its call's answer.
    fn answer_row(&mut self, line: &str) -> Answered<String> {
        let (sentence, rest) = cut(line, "|")?;
        let call = rest.split('|').next().unwrap_or_default().trim();
        let answer = self.answer_call(call).unwrap_or_else(|_| "bad row".to_owned());
        Ok(format!("{} | {call} | {answer}", sentence.trim()))
    }

    fn read_line(&mut self, line: &str) -> Answered<String> {
        if let Some(line) = line.strip_prefix('>') {
            self.add_line(line.strip_prefix(' ').unwrap_or(line))?;
        } else if let Some(line) = line.strip_prefix("let ") {
            self.name_bytes(line)?;
        } else if let Some(name) = line.strip_prefix("text ") {
            self.begin_text(name.trim());
        } else if !line.is_empty() && !line.starts_with('#') {
            return self.answer_row(line);
        }
        Ok(line.to_owned())
    }

    /// The line as it is written: a row with its answer, every other line as it stands.
    pub fn answer_line(&mut self, line: &str) -> String {
        self.read_line(line).unwrap_or_else(|_| format!("{line} | bad row"))
    }
}
