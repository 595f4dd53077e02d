//! The dispatcher: fixed memory for 24 tasks with up to 8 waiting jobs each, generic over the policy.
use crate::policy::{Job, Policy};
use crate::table::{Mode, Refusal, Table, Task, MAX_TASKS};

pub const LONGEST_LINE: usize = 8;
pub const LAST_TIME: u32 = 4_000_000_000;

#[derive(Clone, Copy, Debug, PartialEq, Eq)]
pub enum Ticked {
    Idle,
    Ran { task: usize, release: u32 },
    Finished { task: usize, release: u32, response: u32 },
}

#[derive(Clone, Copy, Debug, PartialEq, Eq)]
pub struct Counts {
    pub accepted: u32,
    pub finished: u32,
    pub waiting: u32,
    pub missed: u32,
    pub longest: u32,
}

/// The waiting jobs of one task, the oldest first, and its counts. Only the oldest may have run.
#[derive(Clone, Copy, Default)]
struct Line {
    releases: [u32; LONGEST_LINE],
    len: usize,
    ran: u32,
    free: u32,
    finished: u32,
    missed: u32,
    longest: u32,
}

impl Line {
    fn first(&self) -> Option<u32> {
        (self.len > 0).then_some(self.releases[0])
    }

    fn push(&mut self, time: u32, period: u32) {
        self.releases[self.len] = time;
        self.len += 1;
        self.free = time + period;
    }

    // The oldest job is finished with this response.
    fn finish(&mut self, response: u32, deadline: u32) {
        self.releases.copy_within(1.., 0);
        self.len -= 1;
        self.ran = 0;
        self.finished += 1;
        self.missed += u32::from(response > deadline);
        self.longest = self.longest.max(response);
    }
}

pub struct Run<P> {
    policy: P,
    table: Table,
    time: u32,
    lines: [Line; MAX_TASKS],
    begun: Option<usize>,
}

impl<P: Policy> Run<P> {
    pub fn new(policy: P, table: &Table) -> Self {
        Run { policy, table: table.clone(), time: 0, lines: [Line::default(); MAX_TASKS], begun: None }
    }

    fn task(&self, task: usize) -> Result<Task, Refusal> {
        self.table.tasks().get(task).copied().ok_or(Refusal::NoTaskToRun { task })
    }

    pub fn release(&mut self, task: usize) -> Result<u32, Refusal> {
        let known = self.task(task)?;
        let line = &mut self.lines[task];
        if self.time < line.free {
            return Err(Refusal::TooSoon { task });
        }
        if line.len >= LONGEST_LINE {
            return Err(Refusal::QueueFull { task });
        }
        line.push(self.time, known.period);
        Ok(self.time)
    }

    // The job ahead of all that wait.
    fn leader(&self) -> Option<Job> {
        let mut best: Option<Job> = None;
        for (task, line) in self.lines[..self.table.tasks().len()].iter().enumerate() {
            if let Some(release) = line.first() {
                let job = Job { task, release: release.into() };
                if best.is_none_or(|head| self.policy.ahead(&self.table, job, head)) {
                    best = Some(job);
                }
            }
        }
        best
    }

    // The task whose oldest job is to run.
    fn pick(&self) -> Option<usize> {
        match (self.table.mode, self.begun) {
            (Mode::NonPreemptive, Some(task)) => Some(task),
            _ => self.leader().map(|job| job.task),
        }
    }

    pub fn tick(&mut self, done: bool) -> Result<Ticked, Refusal> {
        if self.time >= LAST_TIME {
            return Err(Refusal::TimeOver);
        }
        let chosen = self.pick();
        self.time += 1;
        let Some(task) = chosen else {
            self.begun = None;
            return Ok(Ticked::Idle);
        };
        let known = &self.table.tasks()[task];
        let line = &mut self.lines[task];
        let release = line.releases[0];
        line.ran += 1;
        if done || line.ran >= known.cost {
            let response = self.time - release;
            line.finish(response, known.deadline);
            self.begun = None;
            Ok(Ticked::Finished { task, release, response })
        } else {
            self.begun = Some(task);
            Ok(Ticked::Ran { task, release })
        }
    }

    pub fn look(&self, task: usize) -> Result<Counts, Refusal> {
        self.task(task)?;
        let line = &self.lines[task];
        let waiting = line.len as u32;
        Ok(Counts {
            accepted: line.finished + waiting,
            finished: line.finished,
            waiting,
            missed: line.missed,
            longest: line.longest,
        })
    }
}
