//! The task table.

pub const MAX_TASKS: usize = 24;

#[derive(Clone, Copy, Debug, PartialEq, Eq)]
pub enum Mode {
    NonPreemptive,
    Preemptive,
}

#[derive(Clone, Copy, Debug, PartialEq, Eq)]
pub enum PolicyCode {
    Fixed,
    Deadline,
    Arrival,
    Bands,
}

#[derive(Clone, Copy, Debug)]
pub struct Name {
    pub bytes: [u8; 8],
    pub len: usize,
}

#[derive(Clone, Copy, Debug)]
pub struct Task {
    pub cost: u32,
    pub period: u32,
    pub deadline: u32,
    pub rank: u8,
    pub name: Name,
}

/// A table that keeps its rules: 1 to 24 tasks, the first `count` of `room`.
#[derive(Clone, Debug)]
pub struct Table {
    pub policy: PolicyCode,
    pub mode: Mode,
    pub band: usize,
    count: usize,
    room: [Task; MAX_TASKS],
}

impl Table {
    /// The reader has checked the parts.
    pub(crate) fn new(policy: PolicyCode, mode: Mode, band: usize, count: usize, room: [Task; MAX_TASKS]) -> Self {
        assert!(count <= MAX_TASKS);
        Table { policy, mode, band, count, room }
    }

    pub fn tasks(&self) -> &[Task] {
        &self.room[..self.count]
    }
}

#[derive(Clone, Copy, Debug, PartialEq, Eq)]
pub enum Refusal {
    Ended { place: usize },
    WrongMark { place: usize },
    HeaderRange { place: usize },
    TaskRange { place: usize },
    RankTaken { place: usize },
    NameByte { place: usize },
    Trailing { place: usize },
    FewRows,
    NoBusyPeriod,
    NoTaskToRun { task: usize },
    TooSoon { task: usize },
    QueueFull { task: usize },
    TimeOver,
}

impl Refusal {
    /// Its number, and the place or task that goes with it.
    pub fn numbers(self) -> (u32, usize) {
        match self {
            Refusal::Ended { place } => (1, place),
            Refusal::WrongMark { place } => (2, place),
            Refusal::HeaderRange { place } => (3, place),
            Refusal::TaskRange { place } => (4, place),
            Refusal::RankTaken { place } => (5, place),
            Refusal::NameByte { place } => (6, place),
            Refusal::Trailing { place } => (7, place),
            Refusal::FewRows => (8, 0),
            Refusal::NoBusyPeriod => (10, 0),
            Refusal::NoTaskToRun { task } => (12, task),
            Refusal::TooSoon { task } => (13, task),
            Refusal::QueueFull { task } => (14, task),
            Refusal::TimeOver => (15, 0),
        }
    }
}
