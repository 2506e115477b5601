//! Files in frames of a pool.

use crate::machine::FRAME;
use std::ops::Range;

/// Where the files' bytes come from.
pub trait Source {
    /// Copies bytes of a file to `at` in memory.
    fn load(&self, memory: &mut [u8], at: usize, file: usize, offset: usize, count: usize);
}

impl Source for [Vec<u8>] {
    fn load(&self, memory: &mut [u8], at: usize, file: usize, offset: usize, count: usize) {
        memory[at..at + count].copy_from_slice(&self[file][offset..offset + count]);
    }
}

/// The frames of files one after the other from `start` on: those of each file, a frame for each piece.
fn frames_of(files: &[Vec<u8>], start: usize) -> Vec<Vec<usize>> {
    let mut at = start;
    files
        .iter()
        .map(|file| {
            let own = (0..file.len().div_ceil(FRAME)).map(|piece| at + FRAME * piece).collect::<Vec<_>>();
            at += FRAME * own.len();
            own
        })
        .collect()
}

fn put_pieces(memory: &mut [u8], files: &[Vec<u8>], frames: &[Vec<usize>]) {
    for (file, own) in files.iter().zip(frames) {
        for (piece, at) in file.chunks(FRAME).zip(own) {
            memory[*at..*at + piece.len()].copy_from_slice(piece);
        }
    }
}

/// The frame of each step of a copy, where its bytes begin there, where they go, and how many they are.
fn steps(frames: &[usize], at: usize, offset: usize, count: usize) -> impl Iterator<Item = (Range<usize>, usize)> + '_ {
    let mut done = 0;
    std::iter::from_fn(move || {
        if done == count {
            return None;
        }
        let (piece, skipped) = ((offset + done) / FRAME, (offset + done) % FRAME);
        let next = (FRAME - skipped).min(count - done);
        let from = frames[piece] + skipped;
        let step = (from..from + next, at + done);
        done += next;
        Some(step)
    })
}

/// Files in pieces in the pool of the memory that is booted: piece `i` of a file stands from `frames[file][i]` on.
pub struct Staged {
    pool: Range<usize>,
    frames: Vec<Vec<usize>>,
}

impl Staged {
    /// The pieces take the pool's first frames. It must have one for each.
    pub fn new(memory: &mut [u8], pool: Range<usize>, files: &[Vec<u8>]) -> Staged {
        let frames = frames_of(files, pool.start);
        put_pieces(memory, files, &frames);
        Staged { pool, frames }
    }

    /// Moves each piece that one of these ranges meets to a frame that none meets. The pool must have one for each.
    pub fn make_way(&mut self, memory: &mut [u8], ranges: &[Range<u64>]) {
        let meets = |at: usize| {
            let frame = at as u64..(at + FRAME) as u64;
            ranges.iter().any(|range| range.start < frame.end && frame.start < range.end)
        };
        let behind = self.frames.iter().flatten().max().map_or(self.pool.start, |last| last + FRAME);
        let mut open = (behind..self.pool.end).step_by(FRAME).filter(|at| !meets(*at));
        for at in self.frames.iter_mut().flatten() {
            if meets(*at) {
                let to = open.next().expect("the pool has a frame for each piece");
                memory.copy_within(*at..*at + FRAME, to);
                *at = to;
            }
        }
    }
}

impl Source for Staged {
    fn load(&self, memory: &mut [u8], at: usize, file: usize, offset: usize, count: usize) {
        for (from, to) in steps(&self.frames[file], at, offset, count) {
            memory.copy_within(from, to);
        }
    }
}

/// The same in a pool of its own, which the allocator gives.
#[allow(dead_code)] // `plain` has none
pub struct StagedApart {
    pool: Vec<u8>,
    frames: Vec<Vec<usize>>,
}

#[allow(dead_code)]
impl StagedApart {
    /// The pool of `size` bytes must have a frame for each piece.
    pub fn new(files: &[Vec<u8>], size: usize) -> StagedApart {
        let mut pool = vec![0; size];
        let frames = frames_of(files, 0);
        put_pieces(&mut pool, files, &frames);
        StagedApart { pool, frames }
    }
}

impl Source for StagedApart {
    fn load(&self, memory: &mut [u8], at: usize, file: usize, offset: usize, count: usize) {
        for (from, to) in steps(&self.frames[file], at, offset, count) {
            let next = from.len();
            memory[to..to + next].copy_from_slice(&self.pool[from]);
        }
    }
}
