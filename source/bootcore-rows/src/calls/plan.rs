//! `plan STEP; STEP ..`: one step after the other on a new planner of the machine.
//!
//! A step is `take START..END`, `place len=N align=N low=N high=N lowest` (or `highest`), `prefer at=N len=N align=N low=N
//! high=N`, or `taken`.

use crate::refusing::Refusing;
use crate::row::{Answered, Row, Stop, require, say};
use crate::words::{pick, range};
use bootcore::proved::bl_plan::{PlanFault, Planner, Side};

fn stop(fault: PlanFault) -> Stop {
    match fault {
        PlanFault::NotUsable => Stop::Answer("not usable".to_owned()),
        PlanFault::Overlap => Stop::Answer("overlap".to_owned()),
        PlanFault::NoRoom => Stop::Answer("no room".to_owned()),
        PlanFault::NoMemory => Stop::NoMemory,
    }
}

/// Places a part, at an address if it may be there.
fn place(row: &mut Row<'_>, planner: &mut Planner<'_, &Refusing>, at: Option<u64>) -> Answered {
    let length = row.number_field("len")?;
    let align = row.number_field("align")?;
    let low = row.number_field("low")?;
    let high = row.number_field("high")?;
    require(length != 0 && align != 0)?;
    let placed = match at {
        Some(at) => planner.prefer(at, length, align, low, high),
        None => {
            let side = pick(&[("lowest", Side::Lowest), ("highest", Side::Highest)], row.word())?;
            planner.place(length, align, low, high, side)
        }
    };
    say!(row, "{:x}", placed.map_err(stop)?);
    Ok(())
}

fn step(row: &mut Row<'_>, planner: &mut Planner<'_, &Refusing>) -> Answered {
    match row.word() {
        "take" => {
            let range = range(row.word())?;
            require(range.start < range.end)?;
            planner.take_fixed(range).map_err(stop)?;
            say!(row, "ok");
        }
        "place" => place(row, planner, None)?,
        "prefer" => {
            let at = row.number_field("at")?;
            place(row, planner, Some(at))?;
        }
        "taken" => {
            say!(row, "taken");
            for range in planner.taken() {
                say!(row, " {:x}..{:x}", range.start, range.end);
            }
        }
        _ => return Err(Stop::BadRow),
    }
    Ok(())
}

/// Makes the steps over the heap. The machine stands over another one, so that its requests are not refused.
pub fn answer(row: &mut Row<'_>) -> Answered {
    let machine = row.machine_over(&row.session.beside)?;
    let mut planner = Planner::new(row.heap, &machine)?;
    row.steps(|row| step(row, &mut planner))
}
