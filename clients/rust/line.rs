//! What a task did that the collector does not know yet.
//!
//! A task's touches are noted in segments. Each segment ends at a place. If somebody may come after that place, later touches go into
//! another segment. If nobody may any more, the two become one. So a lock that one task alone acquires leaves nothing in the trace.

use crate::journal::{LockName, Row, Site, Time};
use crate::place::{Kind, Place};
use crate::tracer::Task;
use std::collections::{HashMap, VecDeque};
use std::sync::Arc;

/// From so many segments on, a task looks whether some can become one.
const MANY_SEGMENTS: usize = 32;
/// So many tasks are known at most. What is forgotten may be told once more.
const MOST_KNOWN: usize = 512;

pub(crate) const LAST: &str = "the last segment of a task is always there";

/// A touch by a line of the program, with these locks held.
#[derive(Clone, Debug, PartialEq, Eq)]
pub(crate) struct Touch {
    pub writes: bool,
    pub is_across: bool,
    pub site: usize,
    pub held: Vec<u64>,
}

impl Touch {
    pub fn new(writes: bool, is_across: bool, site: Site, held: &[LockName]) -> Touch {
        let site = site.map_or(0, |site| site as *const _ as usize);
        Touch { writes, is_across, site, held: held.iter().map(|lock| lock.number).collect() }
    }
}

/// What a task touched between two places.
#[derive(Debug)]
pub(crate) struct Segment {
    /// The place at its end.
    pub place: Arc<Place>,
    /// Whether the place was sent. Then nothing is added.
    pub is_closed: bool,
    /// The number of its event among those that stand for touches, once it is reported.
    pub event: Option<u64>,
    pub time: Time,
    pub rows: Vec<Row>,
    seen: HashMap<Box<str>, Vec<Touch>>,
}

impl Segment {
    pub fn new(task: Task) -> Segment {
        Segment { place: Place::new(task), is_closed: false, event: None, time: None, rows: Vec::new(), seen: HashMap::new() }
    }

    /// Whether somebody may come after its place.
    pub fn has_mark(&self) -> bool {
        Arc::strong_count(&self.place) > 1
    }

    pub fn is_empty(&self) -> bool {
        self.seen.is_empty()
    }

    /// Whether the touch is the first of its kind.
    pub fn adds(&mut self, thing: &str, touch: &Touch) -> bool {
        match self.seen.get_mut(thing) {
            Some(known) if known.contains(touch) => false,
            Some(known) => {
                known.push(touch.clone());
                true
            }
            None => {
                self.seen.insert(thing.into(), vec![touch.clone()]);
                true
            }
        }
    }

    /// Whether this and the next one can become one.
    fn can_grow(&self) -> bool {
        !self.is_closed && !self.has_mark()
    }

    /// Takes over the next segment. Gives the rows that are new.
    fn absorb(&mut self, next: Segment) -> Vec<Row> {
        let mut rows = Vec::new();
        for row in next.rows {
            let thing = row.label.split_once(' ').map_or("", |(_, thing)| thing).to_string();
            let is_across = row.thing.as_deref() == Some(&thing);
            let touch = Touch::new(row.kind == "write", is_across, row.site, &row.held);
            if !row.acquired.is_empty() || self.adds(&thing, &touch) {
                rows.push(row);
            }
        }
        self.place = next.place;
        self.is_closed = next.is_closed;
        self.time = self.time.or(next.time);
        rows
    }
}

/// Up to which place of other tasks a task has come after them: by what was meant, by locks that others wait for, and by luck.
#[derive(Clone, Debug, Default)]
pub(crate) struct Known {
    meant: HashMap<Task, u64>,
    guards: HashMap<Task, u64>,
    luck: HashMap<Task, u64>,
}

impl Known {
    pub fn has(&self, place: &Place, kind: Kind) -> bool {
        let comes_after = |known: &HashMap<Task, u64>| known.get(&place.task).is_some_and(|position| *position >= place.position());
        let by_locks = kind >= Kind::Guard && comes_after(&self.guards) || kind == Kind::Luck && comes_after(&self.luck);
        place.position() > 0 && (by_locks || comes_after(&self.meant))
    }

    pub fn add(&mut self, task: Task, position: u64, kind: Kind) {
        let known = match kind {
            Kind::Luck => &mut self.luck,
            Kind::Guard => &mut self.guards,
            Kind::Meant => &mut self.meant,
        };
        if known.len() > MOST_KNOWN {
            known.clear();
        }
        let latest = known.entry(task).or_default();
        *latest = position.max(*latest);
    }
}

/// A task of the program.
#[derive(Debug)]
pub(crate) struct Line {
    pub name: Arc<str>,
    /// What is not reported yet, in order. The last one grows.
    pub open: VecDeque<Segment>,
    pub known: Known,
    /// How many of its places were sent.
    pub position: u64,
    /// The time of its last event.
    pub time: Time,
    pub has_ended: bool,
    /// How many of its events were reported.
    pub events: u64,
    /// How many tasks that nobody has joined yet it has started itself.
    pub children: usize,
    /// The nursery that starts its next ones, and who has started it.
    pub nursery: Option<Task>,
    pub starter: Option<Task>,
    many: usize,
}

impl Line {
    pub fn new(task: Task, name: Arc<str>, known: Known) -> Line {
        Line {
            name,
            open: VecDeque::from([Segment::new(task)]),
            known,
            position: 0,
            time: None,
            has_ended: false,
            events: 0,
            children: 0,
            nursery: None,
            starter: None,
            many: MANY_SEGMENTS,
        }
    }

    pub fn last(&mut self) -> &mut Segment {
        self.open.back_mut().expect(LAST)
    }

    /// The segment that the next touch belongs to. Gives the rows of segments that became one with a reported one, by its event.
    pub fn grow(&mut self, task: Task) -> Vec<(u64, Vec<Row>)> {
        let mut told = Vec::new();
        while self.open.len() > 1 && self.open[self.open.len() - 2].can_grow() {
            told.extend(self.fold(self.open.len() - 2));
        }
        if self.open.len() > self.many {
            for place in (0..self.open.len() - 1).rev() {
                if self.open[place].can_grow() {
                    told.extend(self.fold(place));
                }
            }
            self.many = MANY_SEGMENTS.max(2 * self.open.len());
        }
        if self.last().is_closed || self.last().has_mark() {
            self.open.push_back(Segment::new(task));
        }
        told
    }

    fn fold(&mut self, place: usize) -> Option<(u64, Vec<Row>)> {
        let next = self.open.remove(place + 1)?;
        let segment = &mut self.open[place];
        let rows = segment.absorb(next);
        match segment.event {
            Some(event) => Some((event, rows)),
            None => {
                segment.rows.extend(rows);
                None
            }
        }
    }
}
