//! The tasks of a process that are not over.

use crate::line::{Known, Line};
use crate::tracer::Task;
use std::collections::BTreeMap;
use std::ops::{Index, IndexMut};
use std::sync::Arc;

/// What is known of each task up to its end. Then nobody asks for it any more.
#[derive(Debug, Default)]
pub(crate) struct Lines {
    known: BTreeMap<Task, Line>,
    next: Task,
}

impl Lines {
    pub fn add(&mut self, name: Arc<str>, known: Known) -> Task {
        let task = self.next;
        self.next += 1;
        self.known.insert(task, Line::new(task, name, known));
        task
    }

    pub fn get(&self, task: Task) -> Option<&Line> {
        self.known.get(&task)
    }

    pub fn remove(&mut self, task: Task) {
        self.known.remove(&task);
    }

    /// Those of which this is true, in the order of their beginning.
    pub fn of(&self, is_one: impl Fn(&Line) -> bool) -> Vec<Task> {
        self.known.iter().filter(|(_, line)| is_one(line)).map(|(task, _)| *task).collect()
    }

    pub fn each(&mut self, mut body: impl FnMut(Task, &mut Line)) {
        self.known.iter_mut().for_each(|(task, line)| body(*task, line));
    }
}

const GONE: &str = "a task is known up to its end";

impl Index<Task> for Lines {
    type Output = Line;

    fn index(&self, task: Task) -> &Line {
        self.known.get(&task).expect(GONE)
    }
}

impl IndexMut<Task> for Lines {
    fn index_mut(&mut self, task: Task) -> &mut Line {
        self.known.get_mut(&task).expect(GONE)
    }
}
