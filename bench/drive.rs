//! Drives the proved library and the plain one on the same inputs: makes tables, compares answers, runs one call for a
//! counter, paints the stack.
use plain::analysis::{busy_period, Row};
use plain::boundary::{plain_judge, plain_play, Call, Finding, Outcome, Step};
use plain::tablefile::read_table;

unsafe extern "C" {
    fn station_judge(file: *const u8, len: usize, rows: *mut Row, count: usize) -> Finding;
    fn station_plan(file: *const u8, len: usize, out: *mut u8, room: usize) -> Outcome;
    fn station_play(file: *const u8, len: usize, steps: *mut Step, count: usize) -> Outcome;
}

fn proved_judge(file: &[u8], rows: &mut [Row]) -> Finding {
    unsafe { station_judge(file.as_ptr(), file.len(), rows.as_mut_ptr(), rows.len()) }
}

fn proved_plan(file: &[u8], out: &mut [u8]) -> Outcome {
    unsafe { station_plan(file.as_ptr(), file.len(), out.as_mut_ptr(), out.len()) }
}

fn proved_play(file: &[u8], steps: &mut [Step]) -> Outcome {
    unsafe { station_play(file.as_ptr(), file.len(), steps.as_mut_ptr(), steps.len()) }
}

// Numbers that look random and are the same in every run.
struct Dice(u64);

impl Dice {
    fn roll(&mut self) -> u64 {
        self.0 = self.0.wrapping_mul(6364136223846793005).wrapping_add(1442695040888963407);
        self.0 >> 33
    }

    fn within(&mut self, low: u64, high: u64) -> u64 {
        low + self.roll() % (high - low + 1)
    }
}

#[derive(Clone, Copy)]
struct Made {
    cost: u64,
    period: u64,
    deadline: u64,
    rank: u64,
}

fn encode(policy: u8, mode: u8, band: u8, tasks: &[Made]) -> Vec<u8> {
    let mut file = vec![b'H', b'T', policy, mode, tasks.len() as u8, band];
    for (number, task) in tasks.iter().enumerate() {
        file.extend(b"TK");
        for value in [task.cost, task.period, task.deadline] {
            file.extend((value as u16).to_be_bytes());
        }
        file.extend([task.rank as u8, 1, b'A' + number as u8]);
    }
    file.extend(b"EN");
    file
}

// Ranks by rising period.
fn rank(tasks: &mut [Made]) {
    let mut order: Vec<usize> = (0..tasks.len()).collect();
    order.sort_by_key(|&task| (tasks[task].period, task));
    for (place, task) in order.into_iter().enumerate() {
        tasks[task].rank = place as u64 + 1;
    }
}

fn long_tasks(dice: &mut Dice, count: usize) -> Vec<Made> {
    let load = dice.within(900, 999) as f64 / 1000.0;
    let weights: Vec<f64> = (0..count).map(|_| dice.within(20, 100) as f64).collect();
    let all: f64 = weights.iter().sum();
    let mut tasks: Vec<Made> = weights
        .iter()
        .map(|weight| {
            let period = (200.0 * 200f64.powf(dice.within(0, 1000) as f64 / 1000.0)) as u64;
            let cost = ((period as f64 * load * weight / all) as u64).clamp(1, 4096);
            let deadline = dice.within(period / 2, 3 * period).clamp(1, 65535);
            Made { cost, period, deadline, rank: 1 }
        })
        .collect();
    rank(&mut tasks);
    tasks
}

// A table of so many tasks with a busy period just below this one, and that busy period.
fn table_near(count: usize, busy: u32) -> (Vec<u8>, u32) {
    let mut dice = Dice(count as u64 * 1_000_003 + u64::from(busy));
    loop {
        let file = encode(1, 1, 0, &long_tasks(&mut dice, count));
        if let Some(found) = busy_period(&read_table(&file).unwrap()) {
            if found <= busy && found >= busy - busy / 100 {
                return (file, found);
            }
        }
    }
}

// 24 tasks whose lines fill up: one release a tick, and work for long.
fn crowded() -> Vec<u8> {
    let tasks: Vec<Made> = (0..24).map(|number| Made { cost: 4096, period: 1, deadline: 8, rank: 24 - number }).collect();
    encode(1, 1, 0, &tasks)
}

fn step(kind: u32, task: usize) -> Step {
    Step { call: Call { kind, task }, ..Step::default() }
}

// Calls for counting: a start, then as many rounds of one kind.
fn steps_for(file: &[u8], kind: &str, rounds: usize) -> Vec<Step> {
    let mut steps = Vec::new();
    if kind != "empty" {
        for _ in 0..8 {
            steps.extend((0..24).map(|task| step(0, task)));
            steps.push(step(1, 0));
        }
    }
    match kind {
        "full" | "empty" => steps.extend((0..rounds).map(|_| step(1, 0))),
        "looks" => steps.extend((0..rounds).map(|_| step(3, 24))),
        "turnover" => {
            // a tick with done, then the task that finished releases again
            for _ in 0..rounds {
                steps.push(step(2, 0));
                plain_play(file, &mut steps);
                let reply = steps.last().unwrap().reply;
                assert_eq!(reply.kind, 4);
                steps.push(step(0, reply.numbers[0]));
            }
        }
        _ => panic!("no such calls: {kind}"),
    }
    plain_play(file, &mut steps);
    if kind != "empty" {
        let mut end = steps.clone();
        end.extend((0..24).map(|task| step(3, task)));
        plain_play(file, &mut end);
        assert!(end[steps.len()..].iter().all(|look| look.reply.kind == 5 && look.reply.numbers[2] == 8), "a line is not full");
    }
    steps
}

fn random_table(dice: &mut Dice) -> Vec<u8> {
    let count = dice.within(1, 24) as usize;
    let span = [20, 100, 500, 2000][dice.within(0, 3) as usize];
    let mut tasks: Vec<Made> = (0..count)
        .map(|_| {
            let period = dice.within(1 + span / 20, span);
            let cost = dice.within(1, (3 * period / (2 * count as u64)).clamp(1, 4096));
            let periods = dice.within(1, 8);
            let deadline = dice.within(1, periods * period);
            Made { cost, period, deadline, rank: 1 }
        })
        .collect();
    let mut ranks: Vec<u64> = (1..=count as u64).collect();
    for at in (1..count).rev() {
        ranks.swap(at, dice.within(0, at as u64) as usize);
    }
    for (task, rank) in tasks.iter_mut().zip(ranks) {
        task.rank = rank;
    }
    let policy = dice.within(1, if count > 1 { 4 } else { 3 });
    let band = if policy == 4 { dice.within(1, count as u64 - 1) } else { 0 };
    let mut file = encode(policy as u8, dice.within(0, 1) as u8, band as u8, &tasks);
    // one in five is damaged
    if dice.within(0, 4) == 0 {
        match dice.within(0, 3) {
            0 => file.truncate(dice.within(0, file.len() as u64) as usize),
            1 => file.push(dice.roll() as u8),
            // the rank of a task: 8 bytes into its record of 11
            2 => file[6 + 11 * dice.within(0, count as u64 - 1) as usize + 8] = dice.within(0, 24) as u8,
            _ => {
                let at = dice.within(0, file.len() as u64 - 1) as usize;
                file[at] = dice.roll() as u8;
            }
        }
    }
    file
}

// How many of each refusal there were.
fn numbers(refused: &[usize]) -> String {
    let seen = refused.iter().enumerate().skip(1).filter(|(_, count)| **count > 0);
    seen.map(|(number, count)| format!("{number}: {count}")).collect::<Vec<_>>().join(", ")
}

fn compare(rounds: usize) {
    let mut dice = Dice(20);
    let (mut late, mut calls) = (0, 0);
    let mut refused = [0; 16];
    let mut refused_calls = [0; 16];
    for _ in 0..rounds {
        let file = random_table(&mut dice);
        let room = if dice.within(0, 9) == 0 { dice.within(0, 24) as usize } else { 24 };
        let mut mine = vec![Row { response: 7, offset: 8, deadline: 9 }; room];
        let mut theirs = mine.clone();
        let found = proved_judge(&file, &mut mine);
        assert_eq!(found, plain_judge(&file, &mut theirs), "{file:?}");
        assert_eq!(mine, theirs, "{file:?}");
        refused[found.refusal as usize] += 1;
        late += usize::from(found.late);
        let weights = [dice.within(1, 30), dice.within(1, 30), dice.within(0, 4), dice.within(1, 4)];
        let all: u64 = weights.iter().sum();
        let mut mine: Vec<Step> = (0..dice.within(0, 2000))
            .map(|_| {
                let mut left = dice.within(0, all - 1);
                let kind = weights.iter().position(|weight| {
                    let here = left < *weight;
                    left = left.wrapping_sub(*weight);
                    here
                });
                step(kind.unwrap() as u32, dice.within(0, 25) as usize)
            })
            .collect();
        let mut theirs = mine.clone();
        assert_eq!(proved_play(&file, &mut mine), plain_play(&file, &mut theirs), "{file:?}");
        assert_eq!(mine, theirs, "{file:?}");
        calls += mine.len();
        for step in mine.iter().filter(|step| step.reply.kind == 0) {
            refused_calls[step.reply.numbers[0]] += 1;
        }
    }
    println!("{rounds} random files, {} judged, {late} of them late; refused by number: {}", refused[0], numbers(&refused));
    println!("{calls} random calls of runs; refused by number: {}", numbers(&refused_calls));
    println!("every judgement, row and answer is the same");
}

fn with_header(mut file: Vec<u8>, policy: &str, mode: &str) -> Vec<u8> {
    file[2] = match policy {
        "fixed" => 1,
        "deadline" => 2,
        "arrival" => 3,
        _ => panic!("no such policy: {policy}"),
    };
    file[3] = match mode {
        "holding" => 0,
        "displacing" => 1,
        _ => panic!("no such mode: {mode}"),
    };
    file
}

const PAINT: u8 = 0xA5;
const PAINTED: usize = 256 * 1024;

// How many bytes of stack below this frame the call writes to.
#[inline(never)]
fn painted(call: &mut dyn FnMut()) -> usize {
    let here: usize;
    unsafe {
        std::arch::asm!("mov {}, rsp", out(reg) here);
        // the 128 bytes below the stack pointer may be in use
        for at in here - PAINTED..here - 128 {
            (at as *mut u8).write_volatile(PAINT);
        }
    }
    call();
    let lowest = (here - PAINTED..here).find(|&at| unsafe { (at as *const u8).read_volatile() } != PAINT);
    here - lowest.unwrap()
}

fn stack() {
    let (long, _) = table_near(24, 15_000);
    let crowd = crowded();
    let (mut judge, mut plan, mut play) = (0, 0, 0);
    let (mut plain_judged, mut plain_played) = (0, 0);
    for policy in ["fixed", "deadline", "arrival"] {
        for mode in ["holding", "displacing"] {
            let mut rows = [Row::default(); 24];
            let mut out = [0u8; 1024];
            let file = with_header(long.clone(), policy, mode);
            judge = judge.max(painted(&mut || assert_eq!(proved_judge(&file, &mut rows).refusal, 0)));
            plain_judged = plain_judged.max(painted(&mut || assert_eq!(plain_judge(&file, &mut rows).refusal, 0)));
            plan = plan.max(painted(&mut || assert_eq!(proved_plan(&file, &mut out).refusal, 0)));
            let file = with_header(crowd.clone(), policy, mode);
            let mut steps = steps_for(&file, "turnover", 50);
            steps.extend((0..26).map(|task| step(3, task)));
            play = play.max(painted(&mut || assert_eq!(proved_play(&file, &mut steps).refusal, 0)));
            plain_played = plain_played.max(painted(&mut || assert_eq!(plain_play(&file, &mut steps).refusal, 0)));
        }
    }
    println!("judge {judge} {plain_judged}");
    println!("plan {plan} -");
    println!("play {play} {plain_played}");
}

fn main() {
    let args: Vec<String> = std::env::args().skip(1).collect();
    let words: Vec<&str> = args.iter().map(String::as_str).collect();
    match words.as_slice() {
        ["table", count, busy, path] => {
            let (file, found) = table_near(count.parse().unwrap(), busy.parse().unwrap());
            std::fs::write(path, file).unwrap();
            println!("{found}");
        }
        ["crowd", path] => std::fs::write(path, crowded()).unwrap(),
        ["judge", who, path, policy, mode] => {
            let file = with_header(std::fs::read(path).unwrap(), policy, mode);
            let mut rows = [Row::default(); 24];
            let found = match *who {
                "proved" => proved_judge(&file, &mut rows),
                _ => plain_judge(&file, &mut rows),
            };
            println!("{found:?} {rows:?}");
        }
        ["calls", path, policy, mode, kind, rounds, to] => {
            let file = with_header(std::fs::read(path).unwrap(), policy, mode);
            let steps = steps_for(&file, kind, rounds.parse().unwrap());
            let bytes: Vec<u8> = steps.iter().flat_map(|step| [step.call.kind as u8, step.call.task as u8]).collect();
            std::fs::write(to, bytes).unwrap();
        }
        ["play", who, path, policy, mode, calls] => {
            let file = with_header(std::fs::read(path).unwrap(), policy, mode);
            let calls = std::fs::read(calls).unwrap();
            let mut steps: Vec<Step> = calls.chunks(2).map(|pair| step(u32::from(pair[0]), usize::from(pair[1]))).collect();
            let told = match *who {
                "proved" => proved_play(&file, &mut steps),
                _ => plain_play(&file, &mut steps),
            };
            let sum = steps.iter().fold(0usize, |sum, step| {
                step.reply.numbers.iter().fold(sum.wrapping_mul(31) ^ step.reply.kind as usize, |sum, number| sum.wrapping_mul(31) ^ number)
            });
            println!("{told:?} {sum}");
        }
        ["compare", rounds] => compare(rounds.parse().unwrap()),
        ["stack"] => std::thread::Builder::new().stack_size(4 << 20).spawn(stack).unwrap().join().unwrap(),
        _ => panic!("see bench/run"),
    }
}
