//! A store whose answers are told beforehand: in any order, some tickets a second time with other bytes, some with a fault.

use crate::refusing::Refusing;
use bootcore::proved::bl_session::{Completion, Fetched, Store, StoredFiles, Submission, Ticket};
use bootcore::shim::alloc::AllocError;
use bootcore::shim::vec::{CollectWith, Vec as CoreVec};
use std::collections::VecDeque;

/// What a store is told. A ticket of `fail` comes as a fault, and else one of `twice` comes twice, the second time with each byte
/// exclusive-or 0xFF. A call of `next` takes what is at the first place of `picks` of what is still to come, modulo its number,
/// and the first of it once the picks are used up. One that finds nothing uses its pick up too; one that is refused memory does
/// not count.
#[derive(Default)]
pub struct Script {
    pub twice: Vec<Ticket>,
    pub fail: Vec<Ticket>,
    pub picks: VecDeque<usize>,
}

/// What comes of a submission: its answer, the same with each byte altered, or a fault.
#[derive(Clone, Copy)]
enum Reply {
    Answer(Submission),
    Altered(Submission),
    Fault(Ticket),
}

/// A store over files in memory. What comes of each ticket is appended to a list as it is submitted.
pub struct ScriptStore<'h> {
    heap: &'h Refusing,
    files: CoreVec<Fetched<&'h Refusing>, &'h Refusing>,
    script: Script,
    replies: CoreVec<Reply, &'h Refusing>,
}

impl<'h> ScriptStore<'h> {
    /// A store of these files, by their index in the menu.
    pub fn new(heap: &'h Refusing, files: CoreVec<Fetched<&'h Refusing>, &'h Refusing>, script: Script) -> ScriptStore<'h> {
        ScriptStore { heap, files, script, replies: CoreVec::new(heap) }
    }

    /// The answer to a submission, whose piece is copied: a fault, if there is no such file or piece.
    fn answer(&self, submission: Submission) -> Result<Completion<&'h Refusing>, AllocError> {
        let Submission { file, ticket } = submission;
        Ok(match self.files.piece(file, ticket.piece) {
            Some(piece) => Completion::Piece(ticket, CoreVec::from_slice(self.heap, piece)?),
            None => Completion::Fault(ticket),
        })
    }

    fn completion(&self, reply: Reply) -> Result<Completion<&'h Refusing>, AllocError> {
        match reply {
            Reply::Answer(submission) => self.answer(submission),
            Reply::Fault(ticket) => Ok(Completion::Fault(ticket)),
            Reply::Altered(submission) => Ok(match self.answer(submission)? {
                Completion::Piece(ticket, bytes) => {
                    Completion::Piece(ticket, bytes.iter().map(|byte| byte ^ 0xff).collect_with(self.heap)?)
                }
                fault => fault,
            }),
        }
    }
}

impl<'h> Store for ScriptStore<'h> {
    type Alloc = &'h Refusing;

    fn size(&self, file: u32) -> Result<Option<u64>, AllocError> {
        Ok(self.files.size(file))
    }

    fn left(&self) -> u64 {
        self.replies.len() as u64
    }

    fn submit(&mut self, file: u32, ticket: Ticket) -> Result<(), AllocError> {
        let submission = Submission { file, ticket };
        if self.script.fail.contains(&ticket) {
            self.replies.push(Reply::Fault(ticket))?;
        } else if self.script.twice.contains(&ticket) {
            self.replies.extend_from_slice(&[Reply::Answer(submission), Reply::Altered(submission)])?;
        } else {
            self.replies.push(Reply::Answer(submission))?;
        }
        Ok(())
    }

    fn next(&mut self) -> Result<Option<Completion<&'h Refusing>>, AllocError> {
        let pick = self.script.picks.front().copied().unwrap_or(0);
        let answer = match pick.checked_rem(self.replies.len()) {
            Some(place) => {
                let completion = self.completion(self.replies[place])?;
                self.replies.remove(place);
                Some(completion)
            }
            None => None,
        };
        self.script.picks.pop_front();
        Ok(answer)
    }
}
