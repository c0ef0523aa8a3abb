//! One plan: tasks and messages in ascending names, each offer checked against all that is held.

use crate::fabric::Fabric;
use crate::holds::{Hold, first_meeting, least_slack, least_wait};

#[derive(Clone, Copy)]
pub struct Task {
    pub name: u16,
    pub core: u8,
    pub period: u32,
    pub phase: u32,
    pub width: u32,
}

#[derive(Clone, Copy)]
pub struct Message {
    pub name: u16,
    pub source: u16,
    pub destination: u16,
    pub kind: u8,
    pub delay: u32,
    pub width: u32,
}

/// The first instant of meeting, the smallest held name there and the smallest place, in the order of comparison.
#[derive(Clone, Copy, PartialEq, Eq, PartialOrd, Ord, Debug)]
pub struct Meeting {
    pub instant: u64,
    pub held: u16,
    pub place: u16,
}

#[derive(Clone, Copy, PartialEq, Eq, Debug)]
pub enum Refusal {
    Plain(u8),
    Late(i64),
    Meets(u8, Meeting),
}

/// A place with its hold there.
#[derive(Clone, Copy)]
struct Stay {
    place: u16,
    hold: Hold,
}

impl Task {
    pub fn hold(&self) -> Hold {
        Hold { start: self.phase.into(), period: self.period, width: self.width }
    }
}

#[derive(Clone, Copy)]
/// Where the packets of a message go: the first start, and how much later each next link is taken.
struct Way {
    from: usize,
    to: usize,
    start: u64,
    period: u32,
    width: u32,
}

impl Way {
    fn of(source: &Task, destination: &Task, m: &Message) -> Way {
        Way {
            from: source.core.into(),
            to: destination.core.into(),
            start: u64::from(source.phase) + u64::from(source.width) + u64::from(m.delay),
            period: source.period,
            width: m.width,
        }
    }

    fn stays<F: Fabric>(self, fabric: &F) -> Option<impl Iterator<Item = Stay>> {
        let Way { mut start, period, width, .. } = self;
        let delay = fabric.delay();
        Some(fabric.route(self.from, self.to)?.map(move |place| {
            let hold = Hold { start, period, width };
            start += delay;
            Stay { place, hold }
        }))
    }
}

/// The earlier of two meetings, if there is one.
fn sooner(one: Option<Meeting>, other: Option<Meeting>) -> Option<Meeting> {
    match (one, other) {
        (Some(a), Some(b)) => Some(a.min(b)),
        _ => one.or(other),
    }
}

fn meeting_at(own: &Stay, held: &Stay, name: u16) -> Option<Meeting> {
    if own.place != held.place {
        return None;
    }
    let instant = first_meeting(own.hold, held.hold)?;
    Some(Meeting { instant, held: name, place: own.place })
}

pub struct Plan<'f, F> {
    fabric: &'f F,
    pub tasks: Vec<Task>,
    pub messages: Vec<Message>,
}

impl<'f, F: Fabric> Plan<'f, F> {
    pub fn new(fabric: &'f F) -> Self {
        Plan { fabric, tasks: Vec::with_capacity(64), messages: Vec::with_capacity(128) }
    }

    fn task(&self, name: u16) -> Option<&Task> {
        self.tasks.iter().find(|t| t.name == name)
    }

    fn task_checks(&self, t: &Task) -> Result<(), Refusal> {
        if t.name == 0 || self.task(t.name).is_some() {
            return Err(Refusal::Plain(9));
        }
        if usize::from(t.core) >= self.fabric.nodes() {
            return Err(Refusal::Plain(10));
        }
        let timely = (1..=65536).contains(&t.period)
            && (1..=t.period).contains(&t.width)
            && u64::from(t.phase) + u64::from(t.width) <= u64::from(t.period);
        if !timely {
            return Err(Refusal::Plain(11));
        }
        if self.tasks.len() >= 64 {
            return Err(Refusal::Plain(12));
        }
        Ok(())
    }

    fn task_meeting(&self, t: &Task) -> Option<Meeting> {
        let own = Stay { place: t.core.into(), hold: t.hold() };
        self.tasks.iter().fold(None, |best, held| {
            let stay = Stay { place: held.core.into(), hold: held.hold() };
            sooner(best, meeting_at(&own, &stay, held.name))
        })
    }

    fn hold_task(&mut self, t: Task) {
        let at = self.tasks.iter().take_while(|x| x.name < t.name).count();
        self.tasks.insert(at, t);
    }

    pub fn offer_task(&mut self, t: Task) -> Result<(), Refusal> {
        self.task_checks(&t)?;
        if let Some(meeting) = self.task_meeting(&t) {
            return Err(Refusal::Meets(13, meeting));
        }
        self.hold_task(t);
        Ok(())
    }

    pub fn place_task(&mut self, mut t: Task) -> Result<u32, Refusal> {
        t.phase = 0;
        self.task_checks(&t)?;
        while t.phase <= t.period - t.width {
            let Some(meeting) = self.task_meeting(&t) else {
                self.hold_task(t);
                return Ok(t.phase);
            };
            let wait = self.task(meeting.held).and_then(|held| least_wait(t.hold(), held.hold()));
            t.phase += wait.ok_or(Refusal::Plain(23))?.max(1);
        }
        Err(Refusal::Plain(23))
    }

    pub fn drop_task(&mut self, name: u16) -> Result<(), Refusal> {
        let at = self.tasks.iter().position(|t| t.name == name).ok_or(Refusal::Plain(21))?;
        if self.messages.iter().any(|m| m.source == name || m.destination == name) {
            return Err(Refusal::Plain(22));
        }
        self.tasks.remove(at);
        Ok(())
    }

    fn message_checks(&self, m: &Message) -> Result<(Task, Task), Refusal> {
        if m.name == 0 || self.messages.iter().any(|x| x.name == m.name) {
            return Err(Refusal::Plain(14));
        }
        let (Some(source), Some(destination)) = (self.task(m.source), self.task(m.destination)) else {
            return Err(Refusal::Plain(15));
        };
        if m.kind > 1 || m.delay >= source.period || !(1..=source.period).contains(&m.width) {
            return Err(Refusal::Plain(16));
        }
        if self.fabric.route(source.core.into(), destination.core.into()).is_none() {
            return Err(Refusal::Plain(17));
        }
        if self.messages.len() >= 128 {
            return Err(Refusal::Plain(18));
        }
        Ok((*source, *destination))
    }

    fn late_by(&self, way: &Way, destination: &Task, m: &Message) -> Option<i64> {
        let links = self.fabric.route(way.from, way.to)?.count() as u64;
        let arrival = match links {
            0 => way.start,
            _ => way.start + links * self.fabric.delay() + u64::from(way.width),
        };
        let due = if m.kind == 0 { 0 } else { way.period.into() };
        Some(least_slack(arrival, due, way.period, destination.hold())).filter(|slack| *slack < 0)
    }

    /// The first meeting of packets on their way with those of the held messages.
    fn packet_meeting(&self, way: &Way) -> Option<Meeting> {
        // room for the longest route of a mesh
        let empty = Stay { place: 0, hold: Hold { start: 0, period: 1, width: 1 } };
        let mut room = [empty; 14];
        let mut count = 0;
        for stay in way.stays(self.fabric)? {
            room[count] = stay;
            count += 1;
        }
        let own = &room[..count];
        self.messages.iter().fold(None, |best, held| {
            let (Some(source), Some(destination)) = (self.task(held.source), self.task(held.destination)) else {
                return best;
            };
            let Some(stays) = Way::of(source, destination, held).stays(self.fabric) else {
                return best;
            };
            stays.fold(best, |best, stay| {
                own.iter().fold(best, |best, own| sooner(best, meeting_at(own, &stay, held.name)))
            })
        })
    }

    fn hold_message(&mut self, m: Message) {
        let at = self.messages.iter().take_while(|x| x.name < m.name).count();
        self.messages.insert(at, m);
    }

    pub fn offer_message(&mut self, m: Message) -> Result<(), Refusal> {
        let (source, destination) = self.message_checks(&m)?;
        let way = Way::of(&source, &destination, &m);
        if let Some(slack) = self.late_by(&way, &destination, &m) {
            return Err(Refusal::Late(slack));
        }
        if let Some(meeting) = self.packet_meeting(&way) {
            return Err(Refusal::Meets(20, meeting));
        }
        self.hold_message(m);
        Ok(())
    }

    /// By how many instants packets must be put off to be clear of those of the held message on the link where they meet.
    fn packet_wait(&self, way: &Way, meeting: &Meeting) -> Option<u32> {
        let held = self.messages.iter().find(|m| m.name == meeting.held)?;
        let (source, destination) = (self.task(held.source)?, self.task(held.destination)?);
        let theirs = Way::of(source, destination, held);
        let own = way.stays(self.fabric)?.find(|s| s.place == meeting.place)?;
        let other = theirs.stays(self.fabric)?.find(|s| s.place == meeting.place)?;
        least_wait(own.hold, other.hold)
    }

    pub fn place_message(&mut self, mut m: Message) -> Result<u32, Refusal> {
        m.delay = 0;
        let (source, destination) = self.message_checks(&m)?;
        while m.delay < source.period {
            let way = Way::of(&source, &destination, &m);
            if self.late_by(&way, &destination, &m).is_some() {
                break;
            }
            let Some(meeting) = self.packet_meeting(&way) else {
                self.hold_message(m);
                return Ok(m.delay);
            };
            m.delay += self.packet_wait(&way, &meeting).ok_or(Refusal::Plain(23))?.max(1);
        }
        Err(Refusal::Plain(23))
    }

    pub fn drop_message(&mut self, name: u16) -> Result<(), Refusal> {
        let at = self.messages.iter().position(|m| m.name == name).ok_or(Refusal::Plain(21))?;
        self.messages.remove(at);
        Ok(())
    }
}
