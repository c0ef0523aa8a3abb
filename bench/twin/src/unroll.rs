//! The same questions answered by unrolling time up to the common multiple of the periods, from the latest first start on: once run by
//! run, once instant by instant. A question has so long; where it is not done by then, a bound is told in place of the answer.
//!
//! Each line: which way, the answer or `-`, and the nanoseconds.

use crate::Asked;
use crate::holds::{Hold, clear, first_meeting};
use crate::judge;
use std::time::{Duration, Instant};

fn gcd(a: u128, b: u128) -> u128 {
    if b == 0 { a } else { gcd(b, a % b) }
}

/// Past this instant everything comes again as it was a common multiple before.
fn horizon(holds: &[Hold]) -> u128 {
    let multiple = holds.iter().fold(1u128, |m, h| {
        let p = u128::from(h.period);
        (m / gcd(m, p)).saturating_mul(p)
    });
    let latest = holds.iter().map(|h| u128::from(h.start)).max().unwrap_or(0);
    latest.saturating_add(multiple)
}

/// Whether the time is over; looked at once in a while.
struct Watch {
    begin: Instant,
    limit: Duration,
    steps: u32,
}

impl Watch {
    fn new(limit: Duration) -> Watch {
        Watch { begin: Instant::now(), limit, steps: 0 }
    }

    fn over(&mut self) -> bool {
        self.steps = self.steps.wrapping_add(1);
        self.steps % 65536 == 0 && self.begin.elapsed() > self.limit
    }
}

/// The first instant in two runs of one place, by going over the runs of all holds in turn.
fn by_runs(holds: &[Hold], watch: &mut Watch) -> Result<Option<u64>, ()> {
    if let [one, other] = holds {
        return by_runs_of_two(*one, *other, watch);
    }
    let end = horizon(holds);
    let mut next: Vec<u64> = holds.iter().map(|h| h.start).collect();
    let mut busy = 0; // until this instant
    let mut best: Option<u64> = None;
    loop {
        let mut i = 0;
        for k in 1..next.len() {
            if next[k] < next[i] {
                i = k;
            }
        }
        if best.is_some() || u128::from(next[i]) >= end {
            return Ok(best);
        }
        if next[i] < busy {
            best = Some(next[i]);
        }
        busy = busy.max(next[i] + u64::from(holds[i].width));
        next[i] += u64::from(holds[i].period);
        if watch.over() {
            return Err(());
        }
    }
}

/// The same for two holds, whose next runs are looked at together.
fn by_runs_of_two(one: Hold, other: Hold, watch: &mut Watch) -> Result<Option<u64>, ()> {
    let end = horizon(&[one, other]);
    let (mut a, mut b) = (one.start, other.start);
    while u128::from(a.min(b)) < end {
        if a + u64::from(one.width) <= b {
            a += u64::from(one.period);
        } else if b + u64::from(other.width) <= a {
            b += u64::from(other.period);
        } else {
            return Ok(Some(a.max(b)));
        }
        if watch.over() {
            return Err(());
        }
    }
    Ok(None)
}

/// The same, by going over the instants.
fn by_instants(holds: &[Hold], watch: &mut Watch) -> Result<Option<u64>, ()> {
    let end = horizon(holds);
    // how far each hold is into its period
    let mut into: Vec<u32> = holds
        .iter()
        .map(|h| ((u64::from(h.period) - h.start % u64::from(h.period)) % u64::from(h.period)) as u32)
        .collect();
    let mut instant = 0u64;
    while u128::from(instant) < end {
        let mut held = 0;
        for (h, at) in holds.iter().zip(into.iter_mut()) {
            held += u32::from(*at < h.width && instant >= h.start);
            *at += 1;
            if *at == h.period {
                *at = 0;
            }
        }
        if held > 1 {
            return Ok(Some(instant));
        }
        instant += 1;
        if watch.over() {
            return Err(());
        }
    }
    Ok(None)
}

type Way = fn(&[Hold], &mut Watch) -> Result<Option<u64>, ()>;

const WAYS: [(&str, Way); 2] = [("runs", by_runs), ("instants", by_instants)];

fn told(way: &str, answer: Result<String, ()>, watch: &Watch) {
    println!("{way} {} {}", answer.unwrap_or("-".into()), watch.begin.elapsed().as_nanos());
}

fn unroll_pairs(pairs: &[(Hold, Hold)], limit: Duration) {
    for (name, way) in WAYS {
        for (one, other) in pairs.iter().take(5) {
            let mut watch = Watch::new(limit);
            let met = way(&[*one, *other], &mut watch);
            if let Ok(met) = met {
                assert_eq!(met, first_meeting(*one, *other), "unrolled otherwise");
                assert_eq!(met.is_none(), clear(*one, *other), "unrolled otherwise");
            }
            told(name, met.map(|m| m.map_or("none".into(), |n| n.to_string())), &watch);
        }
    }
}

/// The least slack below 0 of a message, by its packets up to the common multiple.
fn late(m: &judge::Flow, watch: &mut Watch) -> Result<bool, ()> {
    let (period, reader) = (u64::from(m.period), u64::from(m.reader.period));
    let end = horizon(&[Hold { start: 0, period: m.period, width: 1 }, m.reader]);
    let (mut packet, mut run) = (0u64, m.reader.start);
    while u128::from(packet) < end {
        while run < packet + m.due {
            run += reader;
        }
        if run < packet + m.arrival {
            return Ok(true);
        }
        packet += period;
        if watch.over() {
            return Err(());
        }
    }
    Ok(false)
}

/// Whether a plan file's jobs are clean, place by place and message by message.
fn clean(file: &[u8], way: Way, watch: &mut Watch) -> Result<bool, ()> {
    let (places, flows) = judge::laid_out(file);
    for flow in &flows {
        if late(flow, watch)? {
            return Ok(false);
        }
    }
    for holds in places.values() {
        if way(holds, watch)?.is_some() {
            return Ok(false);
        }
    }
    Ok(true)
}

pub fn unroll(asked: &Asked, limit: Duration) {
    match asked {
        Asked::Pairs { pairs, .. } => unroll_pairs(pairs, limit),
        Asked::Judge(file) => {
            for (name, way) in WAYS {
                let mut watch = Watch::new(limit);
                let answer = clean(file, way, &mut watch);
                told(name, answer.map(|clean| if clean { "clean" } else { "not" }.into()), &watch);
            }
        }
        Asked::Call { .. } => {}
    }
}
