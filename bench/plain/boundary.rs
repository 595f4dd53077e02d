//! The same calls on a table file that the static library has, by the same plain numbers.
use crate::analysis::{judge, Judgement, Row, Verdict};
use crate::dispatch::{Counts, Run, Ticked};
use crate::policy::{Arrival, Bands, Deadline, Fixed, Policy};
use crate::table::{PolicyCode, Refusal, Table};
use crate::tablefile::read_table;

#[repr(C)]
#[derive(Clone, Copy, Debug, PartialEq, Eq)]
pub struct Outcome {
    pub refusal: u32,
    pub number: usize,
}

#[repr(C)]
#[derive(Clone, Copy, Debug, PartialEq, Eq)]
pub struct Finding {
    pub refusal: u32,
    pub late: bool,
    pub number: usize,
    pub task: usize,
}

#[repr(C)]
#[derive(Clone, Copy, Debug, Default, PartialEq, Eq)]
pub struct Call {
    pub kind: u32,
    pub task: usize,
}

#[repr(C)]
#[derive(Clone, Copy, Debug, Default, PartialEq, Eq)]
pub struct Reply {
    pub kind: u32,
    pub numbers: [usize; 5],
}

#[repr(C)]
#[derive(Clone, Copy, Debug, Default, PartialEq, Eq)]
pub struct Step {
    pub call: Call,
    pub reply: Reply,
}

fn judge_by_code(table: &Table, rows: &mut [Row]) -> Result<Judgement, Refusal> {
    match table.policy {
        PolicyCode::Fixed => judge(&Fixed, table, rows),
        PolicyCode::Deadline => judge(&Deadline, table, rows),
        PolicyCode::Arrival => judge(&Arrival, table, rows),
        PolicyCode::Bands => judge(&Bands { band: table.band, first: Fixed, second: Deadline }, table, rows),
    }
}

#[unsafe(no_mangle)]
#[inline(never)]
pub fn plain_judge(file: &[u8], rows: &mut [Row]) -> Finding {
    match read_table(file).and_then(|table| judge_by_code(&table, rows)) {
        Ok(Judgement { busy_period, verdict }) => {
            let (late, task) = match verdict {
                Verdict::Admitted => (false, 0),
                Verdict::Late { task } => (true, task),
            };
            Finding { refusal: 0, late, number: busy_period as usize, task }
        }
        Err(why) => {
            let (refusal, number) = why.numbers();
            Finding { refusal, late: false, number, task: 0 }
        }
    }
}

fn told(kind: u32, first: usize, second: usize, third: usize) -> Reply {
    Reply { kind, numbers: [first, second, third, 0, 0] }
}

fn refused(why: Refusal) -> Reply {
    let (number, detail) = why.numbers();
    told(0, number as usize, detail, 0)
}

fn make<P: Policy>(run: &mut Run<P>, call: Call) -> Reply {
    let given = match call.kind {
        0 => run.release(call.task).map(|time| told(1, time as usize, 0, 0)),
        1 | 2 => run.tick(call.kind == 2).map(|ticked| match ticked {
            Ticked::Idle => told(2, 0, 0, 0),
            Ticked::Ran { task, release } => told(3, task, release as usize, 0),
            Ticked::Finished { task, release, response } => told(4, task, release as usize, response as usize),
        }),
        _ => run.look(call.task).map(|Counts { accepted, finished, waiting, missed, longest }| Reply {
            kind: 5,
            numbers: [accepted, finished, waiting, missed, longest].map(|count| count as usize),
        }),
    };
    given.unwrap_or_else(refused)
}

fn play<P: Policy>(policy: P, table: &Table, steps: &mut [Step]) {
    let mut run = Run::new(policy, table);
    for step in steps {
        step.reply = make(&mut run, step.call);
    }
}

#[unsafe(no_mangle)]
#[inline(never)]
pub fn plain_play(file: &[u8], steps: &mut [Step]) -> Outcome {
    let table = match read_table(file) {
        Ok(table) => table,
        Err(why) => {
            let (refusal, number) = why.numbers();
            return Outcome { refusal, number };
        }
    };
    match table.policy {
        PolicyCode::Fixed => play(Fixed, &table, steps),
        PolicyCode::Deadline => play(Deadline, &table, steps),
        PolicyCode::Arrival => play(Arrival, &table, steps),
        PolicyCode::Bands => play(Bands { band: table.band, first: Fixed, second: Deadline }, &table, steps),
    }
    Outcome { refusal: 0, number: steps.len() }
}
