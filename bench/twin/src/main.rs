//! A plain Rust twin of the proved libraries, and what goes with it.
//!
//! twin                 times the workload that standard input holds, as `stopwatch` does, and prints the same
//! twin unroll SECONDS  answers the workload by unrolling time, for at most so many seconds
//! twin smt             puts the workload to a solver, as SMT-LIB
//! twin make FOLDER     writes the workloads

mod fabric;
mod holds;
mod judge;
mod make;
mod plan;
mod smt;
mod unroll;

use fabric::{Fabric, Mesh};
use holds::{Hold, clear, first_meeting};
use plan::{Message, Plan, Refusal, Task};
use std::hint::black_box;
use std::io::Read;
use std::time::{Duration, Instant};

#[derive(Clone, Copy)]
pub struct Rounds {
    pub count: u32,
    pub calls: u32,
}

fn judge_rounds(rounds: Rounds, file: &[u8]) {
    let mut line = [0u8; 64];
    let end = judge::judge(file, &mut line);
    print!("{}", str::from_utf8(&line[..end]).unwrap());
    for _ in 0..rounds.count {
        let mut same = 0u32;
        let begin = Instant::now();
        for _ in 0..rounds.calls {
            let mut again = [0u8; 64];
            judge::judge(black_box(file), &mut again);
            same += u32::from(again == line);
        }
        println!("{same} {}", begin.elapsed().as_nanos());
    }
}

#[derive(Clone, Copy)]
pub enum Call {
    OfferTask(Task),
    OfferMessage(Message),
    PlaceTask(Task),
    PlaceMessage(Message),
}

#[derive(Clone, Copy, PartialEq)]
enum Answer {
    Offered(Result<(), Refusal>),
    Placed(Result<u32, Refusal>),
}

fn step<F: Fabric>(plan: &mut Plan<'_, F>, call: &Call) -> Answer {
    match *call {
        Call::OfferTask(t) => Answer::Offered(plan.offer_task(t)),
        Call::OfferMessage(m) => Answer::Offered(plan.offer_message(m)),
        Call::PlaceTask(t) => Answer::Placed(plan.place_task(t)),
        Call::PlaceMessage(m) => Answer::Placed(plan.place_message(m)),
    }
}

fn undo<F: Fabric>(plan: &mut Plan<'_, F>, call: &Call, answer: &Answer) {
    if !matches!(answer, Answer::Offered(Ok(())) | Answer::Placed(Ok(_))) {
        return;
    }
    let _ = match *call {
        Call::OfferTask(t) | Call::PlaceTask(t) => plan.drop_task(t.name),
        Call::OfferMessage(m) | Call::PlaceMessage(m) => plan.drop_message(m.name),
    };
}

fn call_rounds<F: Fabric>(rounds: Rounds, fabric: &F, calls: &[Call]) {
    let (call, before) = calls.split_last().unwrap();
    let mut plan = Plan::new(fabric);
    for call in before {
        step(&mut plan, call);
    }
    let first = step(&mut plan, call);
    undo(&mut plan, call, &first);
    for _ in 0..rounds.count {
        let mut same = 0u32;
        let begin = Instant::now();
        for _ in 0..rounds.calls {
            let answer = step(black_box(&mut plan), black_box(call));
            undo(&mut plan, call, &answer);
            same += u32::from(answer == first);
        }
        println!("{same} {}", begin.elapsed().as_nanos());
    }
    match first {
        Answer::Offered(Ok(())) => println!("TAKEN"),
        Answer::Placed(Ok(value)) => println!("PLACED {value}"),
        Answer::Offered(Err(refusal)) | Answer::Placed(Err(refusal)) => println!("REFUSED {refusal}"),
    }
}

fn pair_rounds(rounds: Rounds, kind: &str, pairs: &[(Hold, Hold)]) {
    for _ in 0..rounds.count {
        let begin = Instant::now();
        let sum = match kind {
            "clear" => pairs.iter().map(|p| u64::from(clear(p.0, p.1))).sum(),
            _ => pairs.iter().fold(0u64, |sum, p| sum.wrapping_add(first_meeting(p.0, p.1).unwrap_or(1))),
        };
        let sum: u64 = black_box(sum);
        println!("{sum} {}", begin.elapsed().as_nanos());
    }
}

fn unhex(text: &str) -> Vec<u8> {
    (0..text.len()).step_by(2).map(|i| u8::from_str_radix(&text[i..i + 2], 16).unwrap()).collect()
}

/// A call: its words, then its values.
fn call_of(line: &str) -> Option<Call> {
    let words: Vec<&str> = line.split(' ').collect();
    let v: Vec<u32> = words.get(2..)?.iter().map(|w| w.parse().ok()).collect::<Option<_>>()?;
    let task = |phase, width| Task { name: v[0] as u16, core: v[1] as u8, period: v[2], phase, width };
    let message = |delay, width| Message {
        name: v[0] as u16,
        source: v[1] as u16,
        destination: v[2] as u16,
        kind: v[3] as u8,
        delay,
        width,
    };
    Some(match (words[0], words[1]) {
        ("offer", "task") => Call::OfferTask(task(v[3], v[4])),
        ("offer", "message") => Call::OfferMessage(message(v[4], v[5])),
        ("place", "task") => Call::PlaceTask(task(0, v[3])),
        ("place", "message") => Call::PlaceMessage(message(0, v[4])),
        _ => return None,
    })
}

fn hold_of(line: &str) -> Hold {
    let mut words = line.split(' ').map(|w| w.parse::<u64>().unwrap());
    let mut next = || words.next().unwrap();
    Hold { start: next(), period: next() as u32, width: next() as u32 }
}

/// What a workload asks.
pub enum Asked {
    Judge(Vec<u8>),
    Call { fabric: String, calls: Vec<Call> },
    Pairs { kind: String, pairs: Vec<(Hold, Hold)> },
}

fn read_workload(text: &str) -> (Rounds, Asked) {
    let lines: Vec<&str> = text.lines().collect();
    let head: Vec<&str> = lines[0].split(' ').collect();
    let rounds = Rounds { count: head[1].parse().unwrap(), calls: head[2].parse().unwrap() };
    let asked = match head[0] {
        "judge" => Asked::Judge(unhex(lines[1].strip_prefix("load ").unwrap())),
        "call" => Asked::Call {
            fabric: lines[1].to_string(),
            calls: lines[2..].iter().map(|line| call_of(line).unwrap()).collect(),
        },
        kind => Asked::Pairs {
            kind: kind.to_string(),
            pairs: lines[1..].chunks_exact(2).map(|two| (hold_of(two[0]), hold_of(two[1]))).collect(),
        },
    };
    (rounds, asked)
}

fn run(rounds: Rounds, asked: &Asked) {
    match asked {
        Asked::Judge(file) => judge_rounds(rounds, file),
        Asked::Call { fabric, calls } => {
            if let Some(words) = fabric.strip_prefix("fabric mesh ") {
                let v: Vec<u8> = words.split(' ').map(|w| w.parse().unwrap()).collect();
                call_rounds(rounds, &Mesh::new(v[0], v[1], v[2]).unwrap(), calls);
            } else {
                let file = unhex(fabric.strip_prefix("fabric listed ").unwrap());
                call_rounds(rounds, &judge::listed(&file).unwrap().0, calls);
            }
        }
        Asked::Pairs { kind, pairs } => pair_rounds(rounds, kind, pairs),
    }
}

fn main() {
    let args: Vec<String> = std::env::args().collect();
    if args.get(1).is_some_and(|word| word == "make") {
        make::make(std::path::Path::new(&args[2]));
        return;
    }
    let mut text = String::new();
    std::io::stdin().read_to_string(&mut text).unwrap();
    let (rounds, asked) = read_workload(&text);
    match args.get(1).map(String::as_str) {
        Some("unroll") => unroll::unroll(&asked, Duration::from_secs_f64(args[2].parse().unwrap())),
        Some("smt") => smt::put(&asked),
        _ => run(rounds, &asked),
    }
}
