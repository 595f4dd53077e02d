//! The judgement by every offset below the busy period, with a warm start and reaches read once.
use crate::policy::{Policy, Reach};
use crate::table::{Mode, Refusal, Table, MAX_TASKS};

pub const LONGEST_BUSY_PERIOD: u32 = 60_000;

#[repr(C)]
#[derive(Clone, Copy, Debug, Default, PartialEq, Eq)]
pub struct Row {
    pub response: u32,
    pub offset: u32,
    pub deadline: u32,
}

#[derive(Clone, Copy, Debug, PartialEq, Eq)]
pub enum Verdict {
    Admitted,
    Late { task: usize },
}

#[derive(Clone, Copy, Debug, PartialEq, Eq)]
pub struct Judgement {
    pub busy_period: u32,
    pub verdict: Verdict,
}

/// Another task: how many of its jobs can come ahead at the present offset is `limit`.
#[derive(Clone, Copy)]
struct Lane {
    cost: u32,
    period: u32,
    reach: i32,
    limit: u32,
}

const IDLE: Lane = Lane { cost: 0, period: 1, reach: 0, limit: 0 };

// As far as an offset below 60,000 can tell.
const ALWAYS: i32 = 100_000;
const NEVER: i32 = -100_000;

// The sum can pass 32 bits while the busy period is sought.
fn work(lanes: &[Lane], own: u64, t: u32) -> u64 {
    own + lanes
        .iter()
        .map(|lane| u64::from(t.div_ceil(lane.period).min(lane.limit)) * u64::from(lane.cost))
        .sum::<u64>()
}

// The least t from `start` to `cap` that covers its own work.
fn climb(lanes: &[Lane], own: u64, start: u32, cap: u32) -> Option<u32> {
    let mut t = start;
    while t <= cap {
        let next = work(lanes, own, t);
        if next <= u64::from(t) {
            return Some(t);
        }
        if next > u64::from(cap) {
            return None;
        }
        t = next as u32;
    }
    None
}

pub fn busy_period(table: &Table) -> Option<u32> {
    let mut lanes = [IDLE; MAX_TASKS];
    for (lane, task) in lanes.iter_mut().zip(table.tasks()) {
        *lane = Lane { cost: task.cost, period: task.period, reach: ALWAYS, limit: u32::MAX };
    }
    climb(&lanes[..table.tasks().len()], 0, 1, LONGEST_BUSY_PERIOD)
}

// How many of 0, T, 2T, .. come ahead of the offset a.
fn set_limits(lanes: &mut [Lane], a: u32) {
    for lane in lanes {
        let last = a as i32 + lane.reach;
        lane.limit = if last < 0 { 0 } else { last as u32 / lane.period + 1 };
    }
}

// The greatest C - 1 of those whose job released at -1 is behind the offset a.
fn blocking(lanes: &[Lane], a: u32) -> u32 {
    lanes
        .iter()
        .filter(|lane| a as i32 + lane.reach < -1)
        .map(|lane| lane.cost.saturating_sub(1))
        .max()
        .unwrap_or(0)
}

struct Own {
    mode: Mode,
    cost: u32,
    period: u32,
}

// Without preemption the window is counted from one tick earlier, so that one climb serves both modes.
fn own_work(own: &Own, lanes: &[Lane], a: u32) -> u64 {
    let earlier = u64::from(a / own.period);
    let cost = u64::from(own.cost);
    match own.mode {
        Mode::Preemptive => (1 + earlier) * cost,
        Mode::NonPreemptive => 1 + u64::from(blocking(lanes, a)) + earlier * cost,
    }
}

fn response(own: &Own, t: u32, a: u32) -> u32 {
    let end = match own.mode {
        Mode::Preemptive => t,
        Mode::NonPreemptive => t - 1 + own.cost,
    };
    own.cost.max(end.saturating_sub(a))
}

fn worst_response(own: &Own, lanes: &mut [Lane], busy: u32) -> (u32, u32) {
    let mut best = (0, 0);
    let mut last_work = 0;
    let mut last = 1;
    for a in 0..busy {
        let work = own_work(own, lanes, a);
        set_limits(lanes, a);
        let start = if work < last_work { 1 } else { last };
        if let Some(t) = climb(lanes, work, start, busy) {
            last = t;
            last_work = work;
        }
        let response = response(own, last, a);
        if response > best.0 {
            best = (response, a);
        }
    }
    best
}

fn row_of<P: Policy>(policy: &P, table: &Table, busy: u32, i: usize) -> Row {
    let mut lanes = [IDLE; MAX_TASKS];
    for (j, (lane, task)) in lanes.iter_mut().zip(table.tasks()).enumerate() {
        let reach = match policy.reach(table, i, j) {
            Reach::Always => ALWAYS,
            Reach::Never => NEVER,
            Reach::Within(ticks) => ticks,
        };
        *lane = Lane { cost: if j == i { 0 } else { task.cost }, period: task.period, reach, limit: 0 };
    }
    let task = table.tasks()[i];
    let own = Own { mode: table.mode, cost: task.cost, period: task.period };
    let (response, offset) = worst_response(&own, &mut lanes[..table.tasks().len()], busy);
    Row { response, offset, deadline: task.deadline }
}

pub fn judge<P: Policy>(policy: &P, table: &Table, rows: &mut [Row]) -> Result<Judgement, Refusal> {
    let count = table.tasks().len();
    let Some(rows) = rows.get_mut(..count) else {
        return Err(Refusal::FewRows);
    };
    let Some(busy_period) = busy_period(table) else {
        return Err(Refusal::NoBusyPeriod);
    };
    for (i, row) in rows.iter_mut().enumerate() {
        *row = row_of(policy, table, busy_period, i);
    }
    let verdict = match rows.iter().position(|row| row.response > row.deadline) {
        Some(task) => Verdict::Late { task },
        None => Verdict::Admitted,
    };
    Ok(Judgement { busy_period, verdict })
}
