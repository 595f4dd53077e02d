//! Ordering policies.
use crate::table::{Table, Task};

#[derive(Clone, Copy, Debug, PartialEq, Eq)]
pub struct Job {
    pub task: usize,
    pub release: i64,
}

#[derive(Clone, Copy, Debug, PartialEq, Eq)]
pub enum Reach {
    Always,
    Never,
    Within(i32),
}

pub trait Policy {
    /// Whether the first job is ahead of the second; no for a job of no task of the table, for a tick outside
    /// -1 to 4,000,000,000, and for a job and itself.
    fn ahead(&self, table: &Table, first: Job, second: Job) -> bool;

    /// The reach from one task to another; Never where the table lacks one of them, and 0 from a task to itself.
    fn reach(&self, table: &Table, from: usize, to: usize) -> Reach;
}

impl Job {
    fn on_clock(self) -> bool {
        (-1..=4_000_000_000).contains(&self.release)
    }
}

// The tasks of both jobs, if the table has them and both ticks are on the clock.
fn both(table: &Table, first: Job, second: Job) -> Option<(&Task, &Task)> {
    if !first.on_clock() || !second.on_clock() {
        return None;
    }
    Some((table.tasks().get(first.task)?, table.tasks().get(second.task)?))
}

pub struct Fixed;

impl Policy for Fixed {
    fn ahead(&self, table: &Table, first: Job, second: Job) -> bool {
        match both(table, first, second) {
            Some(_) if first.task == second.task => first.release < second.release,
            Some((mine, other)) => mine.rank < other.rank,
            None => false,
        }
    }

    fn reach(&self, table: &Table, from: usize, to: usize) -> Reach {
        match (table.tasks().get(from), table.tasks().get(to)) {
            (Some(_), Some(_)) if from == to => Reach::Within(0),
            (Some(mine), Some(other)) if other.rank < mine.rank => Reach::Always,
            _ => Reach::Never,
        }
    }
}

pub struct Deadline;

impl Policy for Deadline {
    fn ahead(&self, table: &Table, first: Job, second: Job) -> bool {
        let Some((mine, other)) = both(table, first, second) else {
            return false;
        };
        let mine = first.release + i64::from(mine.deadline);
        let other = second.release + i64::from(other.deadline);
        (mine, first.task) < (other, second.task)
    }

    fn reach(&self, table: &Table, from: usize, to: usize) -> Reach {
        match (table.tasks().get(from), table.tasks().get(to)) {
            (Some(mine), Some(other)) => Reach::Within(mine.deadline as i32 - other.deadline as i32 - i32::from(from < to)),
            _ => Reach::Never,
        }
    }
}

pub struct Arrival;

impl Policy for Arrival {
    fn ahead(&self, table: &Table, first: Job, second: Job) -> bool {
        both(table, first, second).is_some() && (first.release, first.task) < (second.release, second.task)
    }

    fn reach(&self, table: &Table, from: usize, to: usize) -> Reach {
        match (table.tasks().get(from), table.tasks().get(to)) {
            (Some(_), Some(_)) => Reach::Within(-i32::from(from < to)),
            _ => Reach::Never,
        }
    }
}

pub struct Bands<P, Q> {
    pub band: usize,
    pub first: P,
    pub second: Q,
}

impl<P: Policy, Q: Policy> Policy for Bands<P, Q> {
    fn ahead(&self, table: &Table, first: Job, second: Job) -> bool {
        match (first.task < self.band, second.task < self.band) {
            (true, true) => self.first.ahead(table, first, second),
            (false, false) => self.second.ahead(table, first, second),
            (true, false) => both(table, first, second).is_some(),
            (false, true) => false,
        }
    }

    fn reach(&self, table: &Table, from: usize, to: usize) -> Reach {
        match (from < self.band, to < self.band) {
            (true, true) => self.first.reach(table, from, to),
            (false, false) => self.second.reach(table, from, to),
            (true, false) => Reach::Never,
            (false, true) if from < table.tasks().len() => Reach::Always,
            (false, true) => Reach::Never,
        }
    }
}
