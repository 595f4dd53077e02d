//! Reading a table file.
use crate::table::{Mode, Name, PolicyCode, Refusal, Table, Task, MAX_TASKS};

struct Reader<'a> {
    bytes: &'a [u8],
    at: usize,
}

impl Reader<'_> {
    fn byte(&mut self) -> Result<u8, Refusal> {
        let byte = *self.bytes.get(self.at).ok_or(Refusal::Ended { place: self.bytes.len() })?;
        self.at += 1;
        Ok(byte)
    }

    fn number(&mut self) -> Result<u32, Refusal> {
        let high = self.byte()?;
        let low = self.byte()?;
        Ok(u32::from(u16::from_be_bytes([high, low])))
    }

    fn mark(&mut self, mark: &[u8; 2]) -> Result<(), Refusal> {
        let place = self.at;
        if [self.byte()?, self.byte()?] == *mark {
            Ok(())
        } else {
            Err(Refusal::WrongMark { place })
        }
    }

    fn task_number(&mut self, allowed: std::ops::RangeInclusive<u32>) -> Result<u32, Refusal> {
        let place = self.at;
        let number = self.number()?;
        if allowed.contains(&number) {
            Ok(number)
        } else {
            Err(Refusal::TaskRange { place })
        }
    }

    fn name(&mut self) -> Result<Name, Refusal> {
        let place = self.at;
        let len = usize::from(self.byte()?);
        if !(1..=8).contains(&len) {
            return Err(Refusal::TaskRange { place });
        }
        let mut bytes = [0; 8];
        for slot in &mut bytes[..len] {
            let place = self.at;
            *slot = self.byte()?;
            if !slot.is_ascii_uppercase() && !slot.is_ascii_digit() {
                return Err(Refusal::NameByte { place });
            }
        }
        Ok(Name { bytes, len })
    }

    fn task(&mut self, count: usize, earlier: &[Task]) -> Result<Task, Refusal> {
        self.mark(b"TK")?;
        let cost = self.task_number(1..=4096)?;
        let period = self.task_number(1..=65535)?;
        let deadline = self.task_number(1..=65535.min(8 * period))?;
        let place = self.at;
        let rank = self.byte()?;
        if rank < 1 || usize::from(rank) > count {
            return Err(Refusal::TaskRange { place });
        }
        if earlier.iter().any(|task| task.rank == rank) {
            return Err(Refusal::RankTaken { place });
        }
        let name = self.name()?;
        Ok(Task { cost, period, deadline, rank, name })
    }
}

pub fn read_table(bytes: &[u8]) -> Result<Table, Refusal> {
    let mut reader = Reader { bytes, at: 0 };
    reader.mark(b"HT")?;
    let policy = match reader.byte()? {
        1 => PolicyCode::Fixed,
        2 => PolicyCode::Deadline,
        3 => PolicyCode::Arrival,
        4 => PolicyCode::Bands,
        _ => return Err(Refusal::HeaderRange { place: 2 }),
    };
    let mode = match reader.byte()? {
        0 => Mode::NonPreemptive,
        1 => Mode::Preemptive,
        _ => return Err(Refusal::HeaderRange { place: 3 }),
    };
    let count = usize::from(reader.byte()?);
    if !(1..=MAX_TASKS).contains(&count) {
        return Err(Refusal::HeaderRange { place: 4 });
    }
    let band = usize::from(reader.byte()?);
    let fits = if policy == PolicyCode::Bands { 1 <= band && band < count } else { band == 0 };
    if !fits {
        return Err(Refusal::HeaderRange { place: 5 });
    }
    let blank = Task { cost: 1, period: 1, deadline: 1, rank: 1, name: Name { bytes: [0; 8], len: 0 } };
    let mut room = [blank; MAX_TASKS];
    for at in 0..count {
        room[at] = reader.task(count, &room[..at])?;
    }
    reader.mark(b"EN")?;
    if reader.at < bytes.len() {
        return Err(Refusal::Trailing { place: reader.at });
    }
    Ok(Table::new(policy, mode, band, count, room))
}
