//! Periodic holds of one place: the gcd pair test, the first meeting by Euclid's descent, the least wait and the least slack.

#[derive(Clone, Copy)]
pub struct Hold {
    pub start: u64,
    pub period: u32,
    pub width: u32,
}

fn gcd(mut a: u32, mut b: u32) -> u32 {
    while b != 0 {
        (a, b) = (b, a % b);
    }
    a
}

/// (to - from) mod g.
fn gap(from: u64, to: u64, g: u32) -> u64 {
    let g = u64::from(g);
    (to + (g - from % g)) % g
}

/// Whether no instant lies in both.
pub fn clear(one: Hold, other: Hold) -> bool {
    let g = gcd(one.period, other.period);
    let d = gap(one.start, other.start, g);
    u64::from(one.width) <= d && d + u64::from(other.width) <= u64::from(g)
}

/// The least j with (at + j * step) mod size < wide.
fn first_landing(mut at: u32, mut step: u32, mut size: u32, mut wide: u32) -> Option<u32> {
    let (mut each, mut past, mut count) = (1, 0, 0);
    while at >= wide {
        if step == 0 {
            return None;
        }
        wide = wide.min(step);
        let ahead = size - at - 1 + wide;
        count += each * (ahead / step) + past;
        (each, past) = (each * (size / step) + past, each);
        at = ahead % step;
        (step, size) = (size % step, step);
    }
    Some(count)
}

/// The start of the first run of `h` that ends after the instant `n`.
fn ending_after(h: Hold, n: u64) -> u64 {
    let period = u64::from(h.period);
    let end = h.start + u64::from(h.width);
    if n < end { h.start } else { h.start + ((n - end) / period + 1) * period }
}

/// The first instant that lies in both.
pub fn first_meeting(one: Hold, other: Hold) -> Option<u64> {
    let begin = ending_after(one, other.start);
    let ahead = begin + u64::from(one.width) - 1 - other.start;
    let at = (ahead % u64::from(other.period)) as u32;
    let j = first_landing(at, one.period % other.period, other.period, one.width + other.width - 1)?;
    let run = begin + u64::from(j) * u64::from(one.period);
    Some(run.max(ending_after(other, run)))
}

/// By how many instants `own` must be put off, at the least, to be clear of `held`.
pub fn least_wait(own: Hold, held: Hold) -> Option<u32> {
    let g = gcd(held.period, own.period);
    let d = gap(held.start, own.start, g) as u32;
    let left = g - d;
    if g < held.width + own.width {
        None
    } else if d < held.width {
        Some(held.width - d)
    } else if left < own.width {
        Some(left + held.width)
    } else {
        Some(0)
    }
}

/// The start of the run that reads a packet less the packet's arrival, at the least.
pub fn least_slack(arrival: u64, due: u64, period: u32, reader: Hold) -> i64 {
    let g = gcd(period, reader.period);
    (due + gap(due, reader.start, g)) as i64 - arrival as i64
}
