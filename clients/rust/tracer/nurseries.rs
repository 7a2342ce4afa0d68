//! Starts tasks for those that have many.
//!
//! A task that starts a task halves what is left of its identity in the clock. So the last ones of many have long
//! identities, and long stamps. From some number of children on a task has nurseries: tasks of which each starts some
//! for it, and does nothing else. `docs/long-runs.md` has the proof that this orders nothing else.

use super::{Refusable, State, Task};
use crate::journal::{Row, Site};
use crate::line::Known;
use std::io;
use std::sync::Arc;

const HINT: &str = "itc_nursery";
/// What a message to a nursery is called.
const MESSAGE: &str = "place";
/// Has two numbers, as in `2 3`.
const VARIABLE: &str = "ITC_TRACE_NURSERIES";

/// From how many children on that nobody has joined a task has nurseries, and how many each of these starts.
#[derive(Clone, Copy, Debug, PartialEq, Eq)]
pub(crate) struct Width {
    children: usize,
    places: usize,
}

impl Width {
    /// As the environment says.
    pub fn read() -> io::Result<Width> {
        let text = std::env::var(VARIABLE).unwrap_or_default();
        if text.is_empty() {
            return Ok(Width { children: 32, places: 32 });
        }
        let numbers: Vec<usize> = text.split(' ').filter_map(|word| word.parse().ok()).collect();
        match numbers[..] {
            [children, places] if places > 0 => Ok(Width { children, places }),
            _ => {
                let reason = format!("{VARIABLE} is {text}, which is not two numbers: set it to two as in \"32 32\"");
                Err(io::Error::new(io::ErrorKind::InvalidInput, reason))
            }
        }
    }
}

/// A task that starts others for its own one.
#[derive(Debug)]
pub(super) struct Nursery {
    name: Arc<str>,
    parent: Task,
    started: usize,
    /// How many events its own task had when it was told last. It is 0 before.
    told: u64,
    /// How many of its tasks nobody has joined yet, and how many of these somebody may still join.
    unjoined: usize,
    awaited: usize,
    is_over: bool,
}

impl State {
    /// Reports that the parent, of which all is reported, starts a task of this name. Gives who has started it.
    pub(super) fn start(&mut self, parent: Task, name: &str, site: Site) -> Task {
        let label = format!("start {name}");
        if self.lines[parent].children < self.width.children {
            self.lines[parent].children += 1;
            self.tell_of(parent, "spawn", name, site, &label);
            return parent;
        }
        let starter = self.nursery_of(parent);
        self.tell_nursery(parent, starter, site, &label);
        self.tell_of(starter, "spawn", name, site, &label);
        let nursery = self.nurseries.get_mut(&starter).expect("a nursery is known as long as it has places");
        nursery.started += 1;
        nursery.unjoined += 1;
        nursery.awaited += 1;
        if nursery.started == self.width.places {
            self.end_nursery(parent);
        }
        starter
    }

    /// The nursery of the task that has a place left.
    fn nursery_of(&mut self, parent: Task) -> Task {
        if let Some(known) = self.lines[parent].nursery {
            return known;
        }
        let name: Arc<str> = self.names.fresh(HINT).into();
        self.tell_of(parent, "spawn", &name, None, &format!("start {name}"));
        let made = self.lines.add(name.clone(), Known::default());
        self.lines[parent].children += 1;
        self.lines[parent].nursery = Some(made);
        let nursery = Nursery { name, parent, started: 0, told: 0, unjoined: 0, awaited: 0, is_over: false };
        self.nurseries.insert(made, nursery);
        made
    }

    /// Has the nursery come after all that the parent has done. Nothing is told if it was told since.
    fn tell_nursery(&mut self, parent: Task, starter: Task, site: Site, label: &str) {
        if self.nurseries[&starter].told == self.lines[parent].events {
            return;
        }
        let message = self.fresh_message(MESSAGE);
        self.tell_of(parent, "send", &message, site, label);
        self.tell_of(starter, "recv", &message, None, label);
        let told = self.lines[parent].events;
        self.nurseries.get_mut(&starter).expect("a nursery that was told is known").told = told;
        if self.has_parts {
            self.received.push(message);
        }
    }

    fn tell_of(&mut self, task: Task, kind: &'static str, name: &str, site: Site, label: &str) {
        let row = Row::new(&self.lines[task].name, kind, site, label.into());
        self.tell(task, format!("{kind} {} {name}", row.task), row, Refusable::Never);
    }

    /// Ends the nursery of the task that has a place left, if there is one.
    pub(super) fn end_nursery(&mut self, parent: Task) -> Option<Task> {
        let over = self.lines[parent].nursery.take()?;
        self.tell_end(over);
        if let Some(nursery) = self.nurseries.get_mut(&over) {
            nursery.is_over = true;
        }
        Some(over)
    }

    /// The same of a task that ends itself, so that nobody joins the nursery.
    pub(super) fn leave_nursery(&mut self, parent: Task) {
        if let Some(over) = self.end_nursery(parent) {
            self.tell_nursery_left(over);
        }
    }

    fn tell_nursery_left(&mut self, over: Task) {
        if let Some(nursery) = self.nurseries.remove(&over).filter(|_| self.has_parts) {
            self.left.push(nursery.name);
        }
    }

    /// The task has joined one of this starter, and joins its nursery too if that was the last one of its own nursery.
    pub(super) fn joined(&mut self, task: Task, starter: Option<Task>) {
        let Some(starter) = starter else { return };
        let Some(nursery) = self.nurseries.get_mut(&starter) else {
            if self.lines.get(starter).is_some() {
                self.lines[starter].children -= 1;
            }
            return;
        };
        nursery.unjoined -= 1;
        nursery.awaited -= 1;
        if !nursery.is_over || nursery.awaited > 0 {
            return;
        }
        if nursery.unjoined == 0 && nursery.parent == task {
            let name = nursery.name.clone();
            self.nurseries.remove(&starter);
            self.lines[task].children -= 1;
            self.tell_of(task, "join", &name, None, &format!("join {name}"));
        } else {
            self.tell_nursery_left(starter);
        }
    }

    /// Nobody can join a task of this starter any more.
    pub(super) fn not_joined(&mut self, starter: Option<Task>) {
        let Some(nursery) = starter.and_then(|starter| self.nurseries.get_mut(&starter)) else { return };
        nursery.awaited -= 1;
        if nursery.is_over && nursery.awaited == 0 {
            self.tell_nursery_left(starter.expect("its nursery is known"));
        }
    }
}
