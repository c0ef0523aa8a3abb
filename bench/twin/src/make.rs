//! The workloads, from a generator with fixed seeds.

use crate::fabric::{Fabric, Mesh};
use crate::plan::{Message, Plan, Refusal, Task};
use std::fmt::Write;
use std::path::Path;

struct Random(u64);

impl Random {
    fn new(seed: u64) -> Random {
        Random(seed.wrapping_mul(0x9E37_79B9_7F4A_7C15) | 1)
    }

    fn next(&mut self) -> u64 {
        self.0 ^= self.0 << 13;
        self.0 ^= self.0 >> 7;
        self.0 ^= self.0 << 17;
        self.0.wrapping_mul(0x2545_F491_4F6C_DD1D) >> 32
    }

    /// From `low` to `high`, both included.
    fn within(&mut self, low: u32, high: u32) -> u32 {
        low + (self.next() % u64::from(high - low + 1)) as u32
    }

    fn one_of<T: Copy>(&mut self, all: &[T]) -> T {
        all[self.within(0, all.len() as u32 - 1) as usize]
    }
}

fn gcd(a: u32, b: u32) -> u32 {
    if b == 0 { a } else { gcd(b, a % b) }
}

fn primes(low: u32, high: u32) -> Vec<u32> {
    (low..=high).filter(|n| *n > 1 && (2..*n).take_while(|d| d * d <= *n).all(|d| n % d != 0)).collect()
}

/// What a plan is made of: every period is `unit` times one of `times`.
struct Shape {
    columns: u8,
    rows: u8,
    delay: u8,
    tasks: usize,
    messages: usize,
    unit: u32,
    times: Vec<u32>,
    widest: u32,
}

impl Shape {
    fn mesh(&self) -> Mesh {
        Mesh::new(self.columns, self.rows, self.delay).unwrap()
    }

    fn fabric_line(&self) -> String {
        format!("fabric mesh {} {} {}", self.columns, self.rows, self.delay)
    }
}

/// A full plan whose periods are near `longest`.
fn full(longest: u32) -> Shape {
    Shape {
        columns: 8,
        rows: 8,
        delay: 2,
        tasks: 64,
        messages: 128,
        unit: longest / 8,
        times: vec![4, 5, 6, 7, 8],
        widest: (longest / 256).max(1),
    }
}

/// The jobs of a clean plan.
#[derive(Clone)]
struct Jobs {
    tasks: Vec<Task>,
    messages: Vec<Message>,
}

/// A message between two random tasks, of the first `sources` for the source.
fn some_message(random: &mut Random, name: u16, tasks: &[Task], sources: usize, widest: u32) -> Message {
    let source = tasks[random.within(0, sources as u32 - 1) as usize].name;
    let destination = tasks[random.within(0, tasks.len() as u32 - 1) as usize].name;
    let kind = u8::from(random.within(0, 9) > 0);
    Message { name, source, destination, kind, delay: 0, width: random.within(1, widest) }
}

/// A clean plan of this shape. The last task has the period `last`, where it is given, and sends nothing.
fn make_jobs(seed: u64, shape: &Shape, last: Option<u32>) -> Jobs {
    let mut random = Random::new(seed);
    let mesh = shape.mesh();
    let mut plan = Plan::new(&mesh);
    let mut name = 1;
    while plan.tasks.len() < shape.tasks {
        let is_last = plan.tasks.len() + 1 == shape.tasks;
        let period = last.filter(|_| is_last).unwrap_or(shape.unit * random.one_of(&shape.times));
        let task = Task {
            name,
            core: ((name - 1) as usize % mesh.nodes()) as u8,
            period,
            phase: random.within(0, period / 4),
            width: random.within(1, shape.widest),
        };
        if plan.offer_task(task).is_ok() {
            name += 1;
        }
    }
    let sources = shape.tasks - usize::from(last.is_some());
    let tasks = plan.tasks.clone();
    while plan.messages.len() < shape.messages {
        let name = plan.messages.len() as u16 + 1;
        let message = some_message(&mut random, name, &tasks, sources, shape.widest);
        if message.source != message.destination {
            let _ = plan.place_message(message);
        }
    }
    Jobs { tasks, messages: plan.messages }
}

fn task_line(t: &Task) -> String {
    format!("offer task {} {} {} {} {}\n", t.name, t.core, t.period, t.phase, t.width)
}

fn message_line(m: &Message) -> String {
    format!("offer message {} {} {} {} {} {}\n", m.name, m.source, m.destination, m.kind, m.delay, m.width)
}

fn place_line(m: &Message) -> String {
    format!("place message {} {} {} {} {}\n", m.name, m.source, m.destination, m.kind, m.width)
}

fn task_bytes(t: &Task) -> Vec<u8> {
    let mut b = t.name.to_be_bytes().to_vec();
    b.extend([t.core, 0]);
    for n in [t.period, t.phase, t.width] {
        b.extend(n.to_be_bytes());
    }
    b
}

fn message_bytes(m: &Message) -> Vec<u8> {
    let mut b = Vec::new();
    for n in [m.name, m.source, m.destination] {
        b.extend(n.to_be_bytes());
    }
    b.extend([m.kind, 0]);
    for n in [m.delay, m.width] {
        b.extend(n.to_be_bytes());
    }
    b
}

fn section<T>(records: &[T], bytes: fn(&T) -> Vec<u8>) -> Vec<u8> {
    let mut b = (records.len() as u16).to_be_bytes().to_vec();
    b.extend(records.iter().flat_map(bytes));
    b
}

fn mesh_file(shape: &Shape, jobs: &Jobs) -> Vec<u8> {
    let mut b = vec![1, 1, shape.columns, shape.rows, shape.delay, 0, 0, 0, 0, 0];
    b.extend(section(&jobs.tasks, task_bytes));
    b.extend(section(&jobs.messages, message_bytes));
    b
}

/// The links and routes of a mesh of 16 nodes as those of a listed fabric.
fn listed_part(shape: &Shape) -> Vec<u8> {
    let mesh = shape.mesh();
    let mut links: Vec<u16> = Vec::new();
    let mut routes = Vec::new();
    for from in 0..mesh.nodes() {
        for to in 0..mesh.nodes() {
            let route: Vec<u16> = mesh.route(from, to).unwrap().collect();
            if from == to {
                continue;
            }
            let mut record = vec![from as u8, to as u8, route.len() as u8, 0];
            for l in &route {
                let at = links.iter().position(|x| x == l).unwrap_or_else(|| {
                    links.push(*l);
                    links.len() - 1
                });
                record.push(at as u8);
            }
            record.resize(16, 0);
            routes.push(record);
        }
    }
    let columns = shape.columns as u16;
    let link_bytes = |l: &u16| {
        let node = l / 4;
        let next = [node + 1, node.wrapping_sub(1), node + columns, node.wrapping_sub(columns)][usize::from(l % 4)];
        vec![node as u8, next as u8]
    };
    let mut b = vec![1, 2, mesh.nodes() as u8, 1, shape.delay, 0];
    b.extend((links.len() as u16).to_be_bytes());
    b.extend(links.iter().flat_map(link_bytes));
    b.extend((routes.len() as u16).to_be_bytes());
    b.extend(routes.concat());
    b
}

fn hex(bytes: &[u8]) -> String {
    bytes.iter().map(|b| format!("{b:02X}")).collect()
}

struct Folder<'a>(&'a Path);

impl Folder<'_> {
    fn write(&self, name: &str, text: &str) {
        std::fs::write(self.0.join(name), text).expect("cannot write a workload");
    }

    fn judge(&self, name: &str, calls: u32, file: &[u8]) {
        self.write(name, &format!("judge 15 {calls}\nload {}\n", hex(file)));
    }

    fn call(&self, name: &str, calls: u32, fabric: &str, jobs: &Jobs, last: &str) {
        let mut text = format!("call 15 {calls}\n{fabric}\n");
        text.extend(jobs.tasks.iter().map(task_line));
        text.extend(jobs.messages.iter().map(message_line));
        self.write(name, &(text + last));
    }

    fn pairs(&self, name: &str, kind: &str, pairs: &[[(u64, u32, u32); 2]]) {
        let mut text = format!("{kind} 15 {}\n", pairs.len());
        for (start, period, width) in pairs.iter().flatten() {
            writeln!(text, "{start} {period} {width}").unwrap();
        }
        self.write(name, &text);
    }
}

/// Without the last message, and that message.
fn without_last(jobs: &Jobs) -> (Jobs, Message) {
    let mut jobs = jobs.clone();
    let last = jobs.messages.pop().unwrap();
    (jobs, last)
}

fn plan_of<'f>(mesh: &'f Mesh, jobs: &Jobs) -> Plan<'f, Mesh> {
    let mut plan = Plan::new(mesh);
    plan.tasks.extend(&jobs.tasks);
    plan.messages.extend(&jobs.messages);
    plan
}

/// A message of a prime period across the whole mesh, which meets each that it shares a link with.
fn across(jobs: &Jobs) -> Message {
    let source = jobs.tasks.last().unwrap();
    Message { name: 1000, source: source.name, destination: 1, kind: 1, delay: 3, width: 1 }
}

/// The message whose placing leaps farthest, or which has no place, of some random ones.
fn hard_to_place(seed: u64, shape: &Shape, held: &Jobs, widest: u32, fits: bool) -> Message {
    let mut random = Random::new(seed);
    let mesh = shape.mesh();
    let mut best: Option<(u32, Message)> = None;
    for _ in 0..2000 {
        let mut message = some_message(&mut random, 1000, &held.tasks, held.tasks.len() - 1, widest);
        message.kind = 1;
        if message.source == message.destination {
            continue;
        }
        let mut plan = plan_of(&mesh, held);
        let rank = match plan.place_message(message) {
            Ok(delay) if fits => delay,
            Err(Refusal::Plain(23)) if !fits => {
                let source = plan.tasks.iter().find(|t| t.name == message.source).unwrap();
                source.period - source.phase
            }
            _ => continue,
        };
        if best.is_none_or(|(least, _)| least < rank) {
            best = Some((rank, message));
        }
    }
    best.expect("no such message").1
}

fn make_full(folder: &Folder) {
    let shape = full(1 << 16);
    let jobs = make_jobs(1, &shape, Some(65521));
    let fabric = shape.fabric_line();
    folder.judge("judge-clear", 1, &mesh_file(&shape, &jobs));
    let mut over = jobs.clone();
    while over.messages.len() < 447 {
        let mut m = over.messages[over.messages.len() - 128];
        m.name += 128;
        over.messages.push(m);
    }
    folder.judge("judge-largest", 1, &mesh_file(&shape, &over));
    let (held, last) = without_last(&jobs);
    folder.call("offer-taken", 10, &fabric, &held, &message_line(&last));
    folder.call("offer-meets", 10, &fabric, &held, &message_line(&across(&jobs)));
    let placed = hard_to_place(2, &shape, &held, 4 * shape.widest, true);
    folder.call("place-message", 2, &fabric, &held, &place_line(&placed));
    let unfit = hard_to_place(3, &shape, &held, shape.unit, false);
    folder.call("place-message-nofit", 1, &fabric, &held, &place_line(&unfit));
    for count in [8, 16, 32, 64, 128] {
        let mut some = jobs.clone();
        some.messages.truncate(count);
        folder.judge(&format!("judge-messages-{count}"), 1, &mesh_file(&shape, &some));
        some.messages.pop();
        folder.call(&format!("taken-messages-{count}"), 10, &fabric, &some, &message_line(&last));
        folder.call(&format!("meets-messages-{count}"), 10, &fabric, &some, &message_line(&across(&jobs)));
    }
}

/// A core that is nearly full.
fn make_tasks(folder: &Folder) {
    let mesh = Mesh::new(1, 1, 0).unwrap();
    let mut random = Random::new(4);
    let mut plan = Plan::new(&mesh);
    while plan.tasks.len() < 63 {
        let period = 8192 * random.within(4, 8);
        let width = random.within(60, 100);
        let phase = random.within(0, period - width);
        let _ = plan.offer_task(Task { name: plan.tasks.len() as u16 + 1, core: 0, period, phase, width });
    }
    let held = Jobs { tasks: plan.tasks.clone(), messages: Vec::new() };
    let fabric = "fabric mesh 1 1 0";
    // the widest that still fits, and one more
    let fits = |width| {
        let mut plan = plan_of(&mesh, &held);
        plan.place_task(Task { name: 1000, core: 0, period: 65536, phase: 0, width })
    };
    let width = (1..8192).take_while(|width| fits(*width).is_ok()).last().unwrap();
    let phase = fits(width).unwrap();
    folder.call("place-task", 10, fabric, &held, &format!("place task 1000 0 65536 {width}\n"));
    folder.call("place-task-nofit", 2, fabric, &held, &format!("place task 1000 0 65536 {}\n", width + 1));
    let taken = Task { name: 1000, core: 0, period: 65536, phase, width };
    folder.call("task-taken", 100, fabric, &held, &task_line(&taken));
    folder.call("task-meets", 100, fabric, &held, &task_line(&Task { period: 65521, phase: 0, width: 1, ..taken }));
}

fn make_listed(folder: &Folder) {
    let shape = Shape { columns: 4, rows: 4, ..full(1 << 16) };
    let jobs = make_jobs(5, &shape, None);
    let fabric = listed_part(&shape);
    let mut file = fabric.clone();
    file.extend(section(&jobs.tasks, task_bytes));
    file.extend(section(&jobs.messages, message_bytes));
    folder.judge("judge-listed", 1, &file);
    let (held, last) = without_last(&jobs);
    folder.call("listed-taken", 5, &format!("fabric listed {}", hex(&fabric)), &held, &message_line(&last));
}

/// A smaller plan, whose periods are one unit times primes, so that the common multiple of all is out of reach. Once it is clean, and
/// once its last message has a prime period, and meets.
fn make_small(folder: &Folder) {
    let shape =
        Shape { columns: 6, rows: 5, delay: 2, tasks: 30, messages: 60, unit: 256, times: primes(40, 256), widest: 8 };
    folder.judge("judge-30-60", 1, &mesh_file(&shape, &make_jobs(6, &shape, None)));
    let (mut jobs, _) = without_last(&make_jobs(6, &shape, Some(65521)));
    jobs.messages.push(across(&jobs));
    folder.judge("judge-30-60-meets", 1, &mesh_file(&shape, &jobs));
}

fn make_periods(folder: &Folder) {
    for (exponent, prime) in [(8, 251), (10, 1021), (12, 4093), (14, 16381), (16, 65521)] {
        let shape = full(1 << exponent);
        let jobs = make_jobs(7, &shape, Some(prime));
        let (held, last) = without_last(&jobs);
        let fabric = shape.fabric_line();
        folder.call(&format!("taken-period-{exponent}"), 10, &fabric, &held, &message_line(&last));
        folder.call(&format!("meets-period-{exponent}"), 10, &fabric, &held, &message_line(&across(&jobs)));
    }
}

/// Pairs of holds with coprime periods, each of one instant.
fn coprime_pairs(random: &mut Random, low: u32, high: u32) -> Vec<[(u64, u32, u32); 2]> {
    let mut pairs = Vec::new();
    while pairs.len() < 2000 {
        let (p, q) = (random.within(low, high), random.within(low, high));
        if gcd(p, q) == 1 {
            let (s, t) = (random.within(0, p - 1), random.within(0, q - 1));
            pairs.push([(u64::from(s), p, 1), (u64::from(t), q, 1)]);
        }
    }
    pairs
}

fn make_pairs(folder: &Folder) {
    let mut random = Random::new(8);
    folder.pairs("meet-above-10000", "meet", &coprime_pairs(&mut random, 10001, 1 << 14));
    for exponent in [8, 10, 12, 14, 16, 20, 24] {
        let high = if exponent == 24 { 255 * 65536 } else { 1 << exponent };
        let low = 1 << (exponent - 1);
        folder.pairs(&format!("meet-{exponent}"), "meet", &coprime_pairs(&mut random, low, high));
        // two neighbours of Fibonacci's series take the most turns of all
        let (mut p, mut q) = (1u32, 2u32);
        while p + q <= high {
            (p, q) = (q, p + q);
        }
        let mut pairs = Vec::new();
        while pairs.len() < 2000 {
            let (s, t) = (random.within(0, p - 1), random.within(0, q - 1));
            pairs.push([(u64::from(s), p, 1), (u64::from(t), q, 1)]);
        }
        folder.pairs(&format!("meet-fibonacci-{exponent}"), "meet", &pairs);
    }
    let mut pairs = Vec::new();
    for _ in 0..2000 {
        let (p, q) = (256 * random.within(128, 256), 256 * random.within(128, 256));
        let (s, t) = (random.within(0, p - 1), random.within(0, q - 1));
        pairs.push([(u64::from(s), p, 32), (u64::from(t), q, 32)]);
    }
    folder.pairs("clear-16", "clear", &pairs);
}

pub fn make(folder: &Path) {
    std::fs::create_dir_all(folder).expect("cannot make the folder");
    let folder = Folder(folder);
    make_full(&folder);
    make_tasks(&folder);
    make_listed(&folder);
    make_small(&folder);
    make_periods(&folder);
    make_pairs(&folder);
}
