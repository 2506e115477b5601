//! `stage sizes=N,N frames=A,B STEP; STEP ..`: files of these sizes staged in these frames of the machine's pool, or with
//! `frames=any` in frames that the stage chooses; then one step after the other: `put FILE INDEX BYTES`, `puts FILE.INDEX=PIECE
//! ..`, `complete`, `view FILE`, `evacuate A..B ..`, `scrub A..B ..`, and those of memory. The memory has the machine's size, is
//! a5 everywhere and one block; that of `sparse_stage ..` keeps only the frames which have room.

use crate::calls::memory::{self, give_pool};
use crate::menus::memory_after::FILL;
use crate::pieces::pieces;
use crate::refusing::Refusing;
use crate::row::{Answered, Row, Stop, require, say};
use crate::words::{cut, number, numbers_if_any, ranges};
use bootcore::proved::bl_map::{FRAME_SIZE, Machine, frames_for};
use bootcore::proved::bl_mem::{ByteView, Flat, PhysMem, Sparse};
use bootcore::proved::bl_stage::{Put, Stage, StageFault, scrub};
use std::collections::HashSet;

fn stop(fault: StageFault) -> Stop {
    match fault {
        StageFault::NoPool => Stop::Answer("no pool".to_owned()),
        StageFault::NoMemory => Stop::NoMemory,
    }
}

/// The stage over the heap, in frames that the row names or in any.
fn begin<'a>(row: &mut Row<'a>, machine: &Machine<&Refusing>, sizes: &[u64]) -> Answered<Stage<&'a Refusing>> {
    let frames = row.field("frames")?;
    if frames == "any" {
        return Stage::begin(row.heap, machine, sizes).map_err(stop);
    }
    let frames = numbers_if_any(frames)?;
    let pool = machine.pool();
    require(frames.iter().all(|frame| frame % FRAME_SIZE == 0 && pool.contains(frame)))?;
    require(frames_for(sizes) == Some(frames.len() as u64))?;
    require(frames.iter().collect::<HashSet<_>>().len() == frames.len())?;
    Stage::begin_at(row.heap, machine, sizes, &frames).map_err(stop)
}

/// Puts the bytes of these words as a piece.
fn put<M: PhysMem>(
    row: &Row<'_>,
    memory: &mut M,
    stage: &mut Stage<&Refusing>,
    file: &str,
    index: &str,
    words: &str,
) -> Answered<Put> {
    let (file, index) = (number(file)?, number(index)?);
    let bytes = row.session.bytes(words)?;
    give_pool(memory, &stage.pool())?;
    Ok(stage.put(memory, file, index, &bytes))
}

fn view<M: PhysMem>(row: &mut Row<'_>, memory: &M, stage: &Stage<&Refusing>) -> Answered {
    let file: u32 = row.number()?;
    let pool = stage.pool();
    require(pool.is_empty() || pool.end <= memory.size())?;
    require((file as usize) < stage.files() && stage.complete())?;
    let view = stage.view(memory, file);
    let mut bytes = vec![0; view.len() as usize];
    view.read(0, &mut bytes);
    say!(row, "{}", pieces(&bytes));
    Ok(())
}

fn step<M: PhysMem>(row: &mut Row<'_>, machine: &Machine<&Refusing>, memory: &mut M, stage: &mut Stage<&Refusing>) -> Answered {
    match row.word() {
        "put" => {
            let (file, index, words) = (row.word(), row.word(), row.rest());
            let word = match put(row, memory, stage, file, index, words)? {
                Put::Stored => "stored",
                Put::Repeated => "repeated",
                Put::Strange => "strange",
            };
            say!(row, "{word}");
        }
        "puts" => {
            for word in row.rest().split_whitespace() {
                let (place, piece) = cut(word, "=")?;
                let (file, index) = cut(place, ".")?;
                let letter = match put(row, memory, stage, file, index, piece)? {
                    Put::Stored => "s",
                    Put::Repeated => "r",
                    Put::Strange => "x",
                };
                say!(row, "{letter}");
            }
        }
        "complete" => say!(row, "{}", if stage.complete() { "complete" } else { "waiting" }),
        "view" => view(row, memory, stage)?,
        "evacuate" => {
            let ranges = ranges(row.rest())?;
            give_pool(memory, &stage.pool())?;
            stage.evacuate(memory, &ranges).map_err(stop)?;
            say!(row, "ok");
        }
        "scrub" => {
            let keep = ranges(row.rest())?;
            give_pool(memory, &machine.pool())?;
            scrub(machine, memory, &keep);
            say!(row, "ok");
        }
        name => memory::step(row, memory, name)?,
    }
    Ok(())
}

fn steps<M: PhysMem>(row: &mut Row<'_>, machine: &Machine<&Refusing>, mut memory: M) -> Answered {
    let sizes = numbers_if_any(row.field("sizes")?)?;
    let mut stage = match begin(row, machine, &sizes) {
        Err(Stop::Answer(text)) => {
            row.rest();
            return Err(Stop::Answer(text));
        }
        begun => begun?,
    };
    row.steps(|row| step(row, machine, &mut memory, &mut stage))
}

/// The machine, over another heap, as the memory, so that their requests are not refused.
fn machine<'a>(row: &Row<'a>) -> Answered<Machine<&'a Refusing>> {
    row.machine_over(&row.session.beside)
}

/// Makes the steps over memory in one block.
pub fn answer_flat(row: &mut Row<'_>) -> Answered {
    let machine = machine(row)?;
    steps(row, &machine, Flat::new(&row.session.beside, machine.size(), FILL)?)
}

/// Makes the steps over memory that keeps only some frames.
pub fn answer_sparse(row: &mut Row<'_>) -> Answered {
    let machine = machine(row)?;
    steps(row, &machine, Sparse::new(&row.session.beside, machine.size(), FILL)?)
}
