//! How often a row's call is made, over which memory and which bytes.

use crate::calls;
use crate::refusing::Refusing;
use crate::row::{Answered, Row, Stop};
use crate::session::Session;
use crate::words::{first_word, number};

/// More requests than any call of a row makes.
const REQUESTS: u64 = 100_000;

/// A call, which may be made more than once.
struct Call<'a> {
    session: &'a Session,
    words: &'a str,
    /// The bytes that it is over, if it takes some.
    bytes: Option<Vec<u8>>,
}

/// Answers by their numbers, one for each longest run of equal ones: `0..f: ANSWER; 10: ANSWER`.
pub fn joined(answers: &[(u64, String)], show: impl Fn(u64) -> String) -> String {
    let runs = answers.chunk_by(|(_, one), (_, other)| one == other).filter_map(|run| Some((run.first()?, run.last()?)));
    let texts = runs.map(|((first, answer), (last, _))| match first == last {
        true => format!("{}: {answer}", show(*first)),
        false => format!("{}..{}: {answer}", show(*first), show(*last)),
    });
    texts.collect::<Vec<_>>().join("; ")
}

/// The same, where the numbers are hexadecimal.
pub fn joined_hexadecimal(answers: &[(u64, String)]) -> String {
    joined(answers, |number| format!("{number:x}"))
}

impl<'a> Call<'a> {
    fn of(session: &'a Session, call: &'a str) -> Answered<Call<'a>> {
        let (name, rest) = first_word(call);
        let (words, bytes) = match call.split_once(" of ") {
            Some((words, bytes)) => (words, Some(bytes)),
            None if calls::takes_bytes(name) => (name, Some(rest)),
            None => (call, None),
        };
        Ok(Call { session, words, bytes: bytes.map(|words| session.bytes(words)).transpose()? })
    }

    /// Makes the call over bytes, where its `nth` request is refused and all after it; at 0 none is. What it answers, and whether
    /// a request was refused.
    fn make(&self, nth: u64, bytes: &[u8]) -> Answered<(String, bool)> {
        let heap = Refusing::new(nth);
        let mut row = Row::new(&heap, self.session, self.words, bytes);
        let made = calls::make(&mut row, self.bytes.is_some());
        row.end(made, 0)?;
        let mut answer = row.text;
        if heap.held() != 0 {
            answer += ", and leaks";
        }
        Ok((answer, heap.refused() != 0))
    }

    fn once(&self, nth: u64) -> Answered<(String, bool)> {
        self.make(nth, self.bytes.as_deref().unwrap_or_default())
    }

    /// The first request is refused, the second, .. until none was.
    fn each_refusal(&self) -> Answered<String> {
        let mut answers = Vec::new();
        for nth in 1..REQUESTS {
            let (answer, is_refused) = self.once(nth)?;
            answers.push((nth, answer));
            if !is_refused {
                return Ok(joined(&answers, |number| number.to_string()));
            }
        }
        Err(Stop::BadRow)
    }

    /// The bytes of a call that is made over changed ones.
    fn take_bytes(&mut self) -> Answered<Vec<u8>> {
        self.bytes.replace(Vec::new()).ok_or(Stop::BadRow)
    }

    /// Over the first bytes, from none to all.
    fn each_cut(mut self) -> Answered<String> {
        let bytes = self.take_bytes()?;
        let cut = |length| Ok((length as u64, self.make(0, &bytes[..length])?.0));
        Ok(joined_hexadecimal(&(0..=bytes.len()).map(cut).collect::<Answered<Vec<_>>>()?))
    }

    /// Over all bytes with one of them set to a value, for each.
    fn each_set(mut self, value: u8) -> Answered<String> {
        let mut bytes = self.take_bytes()?;
        let mut answers = Vec::new();
        for at in 0..bytes.len() {
            let before = std::mem::replace(&mut bytes[at], value);
            answers.push((at as u64, self.make(0, &bytes)?.0));
            bytes[at] = before;
        }
        Ok(joined_hexadecimal(&answers))
    }
}

/// How a call is made.
pub enum Way {
    /// Once, where the request of this number is refused and all after it, or none at 0.
    Once(u64),
    EachRefusal,
    EachCut,
    EachSet(u8),
}

/// How the call is made, and the call: `CALL`, `refuse N CALL` or `each .. CALL`.
pub fn read_way(words: &str) -> Answered<(Way, &str)> {
    let (kind, rest) = first_word(words);
    let (field, call) = first_word(rest);
    match kind {
        "refuse" => return Ok((Way::Once(field.parse()?), call)),
        "each" => {}
        _ => return Ok((Way::Once(0), words)),
    }
    let (value, rest) = first_word(call);
    Ok(match field {
        "refusal" => (Way::EachRefusal, call),
        "cut" => (Way::EachCut, call),
        "set" => (Way::EachSet(number(value)?), rest),
        _ => return Err(Stop::BadRow),
    })
}

/// What a call answers that is made so.
pub fn answer(session: &Session, way: Way, call: &str) -> Answered<String> {
    let call = Call::of(session, call)?;
    match way {
        Way::Once(nth) => Ok(call.once(nth)?.0),
        Way::EachRefusal => call.each_refusal(),
        Way::EachCut => call.each_cut(),
        Way::EachSet(value) => call.each_set(value),
    }
}
