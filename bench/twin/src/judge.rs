//! A plan file to its verdict line.

use crate::fabric::{Fabric, Listed, Mesh};
use crate::holds::Hold;
use crate::plan::{Message, Plan, Refusal, Task};
use std::collections::BTreeMap;
use std::io::Write;

const WORDS: [&str; 27] = [
    "SHORT", "VERSION", "HEAD", "COUNT", "LINK", "ROUTE", "CHAIN", "ORDER", "NAME", "CORE", "TIMES", "FULL", "MEETS",
    "NAME", "ENDS", "TIMES", "NOROUTE", "FULL", "LATE", "MEETS", "UNKNOWN", "INUSE", "NOFIT", "RECORD", "EXTRA",
    "PLACE", "BUFFER",
];

impl std::fmt::Display for Refusal {
    fn fmt(&self, f: &mut std::fmt::Formatter<'_>) -> std::fmt::Result {
        match self {
            Refusal::Plain(n) => write!(f, "{n} {}", WORDS[usize::from(*n) - 1]),
            Refusal::Late(slack) => write!(f, "19 LATE {slack}"),
            Refusal::Meets(n, m) => write!(f, "{n} MEETS {} {} {}", m.instant, m.held, m.place),
        }
    }
}

/// Section, record and refusal.
type Told = (u8, usize, Refusal);

fn told(section: u8, record: usize, number: u8) -> Told {
    (section, record, Refusal::Plain(number))
}

fn be16(b: &[u8]) -> u16 {
    u16::from_be_bytes([b[0], b[1]])
}

fn be32(b: &[u8]) -> u32 {
    u32::from_be_bytes([b[0], b[1], b[2], b[3]])
}

/// The records of a section of records of one size, and what follows it.
fn section(bytes: &[u8], each: usize, number: u8, limit: u16) -> Result<(&[u8], &[u8]), Told> {
    let Some(count) = bytes.get(..2).map(be16) else {
        return Err(told(number, 0, 1));
    };
    if count > limit {
        return Err(told(number, 0, 4));
    }
    let body = &bytes[2..];
    let size = usize::from(count) * each;
    if body.len() < size {
        return Err(told(number, body.len() / each, 1));
    }
    Ok(body.split_at(size))
}

fn read_task(b: &[u8]) -> Option<Task> {
    (b[3] == 0).then(|| Task {
        name: be16(b),
        core: b[2],
        period: be32(&b[4..]),
        phase: be32(&b[8..]),
        width: be32(&b[12..]),
    })
}

fn read_message(b: &[u8]) -> Option<Message> {
    (b[6] <= 1 && b[7] == 0).then(|| Message {
        name: be16(b),
        source: be16(&b[2..]),
        destination: be16(&b[4..]),
        kind: b[6],
        delay: be32(&b[8..]),
        width: be32(&b[12..]),
    })
}

fn judge_on<F: Fabric>(fabric: &F, part: &[u8]) -> Result<(usize, usize), Told> {
    let (tasks, rest) = section(part, 16, 3, u16::MAX)?;
    let (messages, rest) = section(rest, 16, 4, u16::MAX)?;
    if !rest.is_empty() {
        return Err(told(5, 0, 25));
    }
    if let Some(place) = tasks.chunks_exact(16).position(|b| read_task(b).is_none()) {
        return Err(told(3, place, 24));
    }
    if let Some(place) = messages.chunks_exact(16).position(|b| read_message(b).is_none()) {
        return Err(told(4, place, 24));
    }
    let mut plan = Plan::new(fabric);
    for (place, task) in tasks.chunks_exact(16).flat_map(read_task).enumerate() {
        plan.offer_task(task).map_err(|refusal| (3, place, refusal))?;
    }
    for (place, message) in messages.chunks_exact(16).flat_map(read_message).enumerate() {
        plan.offer_message(message).map_err(|refusal| (4, place, refusal))?;
    }
    Ok((plan.tasks.len(), plan.messages.len()))
}

fn link_good(nodes: u8, link: &[u8]) -> bool {
    link[0] < nodes && link[1] < nodes && link[0] != link[1]
}

fn route_fault(nodes: u8, links: &[u8], prior: Option<&[u8]>, r: &[u8]) -> Option<u8> {
    let count = links.len() / 2;
    let length = usize::from(r[2]);
    let shaped = r[0] < nodes
        && r[1] < nodes
        && r[0] != r[1]
        && (1..=12).contains(&length)
        && r[3] == 0
        && r[4..4 + length].iter().all(|n| usize::from(*n) < count)
        && r[4 + length..].iter().all(|n| *n == 0);
    if !shaped {
        return Some(6);
    }
    let numbers = &r[4..4 + length];
    let mut at = r[0];
    for n in numbers {
        let link = &links[2 * usize::from(*n)..];
        if link[0] != at {
            return Some(7);
        }
        at = link[1];
    }
    let twice = (1..length).any(|i| numbers[i..].contains(&numbers[i - 1]));
    if at != r[1] || twice {
        return Some(7);
    }
    prior.is_some_and(|q| (q[0], q[1]) >= (r[0], r[1])).then_some(8)
}

/// The fabric that a file lists, and the job part behind it.
pub fn listed(file: &[u8]) -> Result<(Listed<'_>, &[u8]), Told> {
    let (nodes, delay) = (file[2], file[4]);
    if !(1..=64).contains(&nodes) || file[3] != 1 || delay > 64 {
        return Err(told(0, 0, 3));
    }
    let (links, rest) = section(&file[6..], 2, 1, 128)?;
    if let Some(place) = links.chunks_exact(2).position(|link| !link_good(nodes, link)) {
        return Err(told(1, place, 5));
    }
    let (routes, rest) = section(rest, 16, 2, 256)?;
    let mut prior = None;
    for (place, route) in routes.chunks_exact(16).enumerate() {
        if let Some(number) = route_fault(nodes, links, prior, route) {
            return Err(told(2, place, number));
        }
        prior = Some(route);
    }
    Ok((Listed { nodes: nodes.into(), delay: delay.into(), routes }, rest))
}

fn verdict(file: &[u8]) -> Result<(usize, usize), Told> {
    if file.len() > 8192 {
        return Err(told(5, 0, 25));
    }
    let [version, kind, x, y, delay, zero, rest @ ..] = file else {
        return Err(told(0, 0, 1));
    };
    if *version != 1 || *zero != 0 || !(1..=2).contains(kind) {
        return Err(told(0, 0, 2));
    }
    if *kind == 2 {
        let (fabric, part) = listed(file)?;
        return judge_on(&fabric, part);
    }
    let mesh = Mesh::new(*x, *y, *delay).ok_or(told(0, 0, 3))?;
    let (_, rest) = section(rest, 2, 1, 0)?;
    let (_, part) = section(rest, 16, 2, 0)?;
    judge_on(&mesh, part)
}

/// Writes the verdict line to the start of the buffer and answers its length.
pub fn judge(file: &[u8], mut out: &mut [u8]) -> usize {
    let room = out.len();
    let written = match verdict(file) {
        Ok((tasks, messages)) => writeln!(out, "CLEAR {tasks} {messages}"),
        Err((section, record, refusal)) => writeln!(out, "REFUSED {section} {record} {refusal}"),
    };
    written.expect("the buffer is too short");
    room - out.len()
}

/// The packets of a message and the task that reads them.
pub struct Flow {
    pub arrival: u64,
    pub due: u64,
    pub period: u32,
    pub reader: Hold,
}

/// The holds of each place, of cores by 0 and of links by 1 and their number, and the messages, of a mesh file that is well made.
pub fn laid_out(file: &[u8]) -> (BTreeMap<(u8, u16), Vec<Hold>>, Vec<Flow>) {
    let mesh = Mesh::new(file[2], file[3], file[4]).unwrap();
    let (tasks, rest) = section(&file[10..], 16, 3, u16::MAX).unwrap();
    let (messages, _) = section(rest, 16, 4, u16::MAX).unwrap();
    let tasks: Vec<Task> = tasks.chunks_exact(16).flat_map(read_task).collect();
    let named = |name| tasks.iter().find(|t| t.name == name).unwrap();
    let mut places: BTreeMap<(u8, u16), Vec<Hold>> = BTreeMap::new();
    for t in &tasks {
        places.entry((0, t.core.into())).or_default().push(t.hold());
    }
    let mut flows = Vec::new();
    for m in messages.chunks_exact(16).flat_map(read_message) {
        let (source, destination) = (named(m.source), named(m.destination));
        let mut start = u64::from(source.phase) + u64::from(source.width) + u64::from(m.delay);
        let mut arrival = start;
        for link in mesh.route(source.core.into(), destination.core.into()).unwrap() {
            let hold = Hold { start, period: source.period, width: m.width };
            places.entry((1, link)).or_default().push(hold);
            start += mesh.delay;
            arrival = start + u64::from(m.width);
        }
        let due = if m.kind == 0 { 0 } else { source.period.into() };
        flows.push(Flow { arrival, due, period: source.period, reader: destination.hold() });
    }
    (places, flows)
}
