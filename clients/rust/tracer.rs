//! Reports for one process to one tenant, in batches. The program's threads only add to what is to be sent. A thread of the tracer sends
//! it and writes the journal, and another one reads the replies.

mod nurseries;

use crate::ending;
use crate::environment::{tag_of, task_of, Child, Environment, MOST_NAME};
use crate::journal::{self, Event, HeldLock, LockName, Row, Site};
use crate::line::{Known, Segment, Touch, LAST};
use crate::lines::Lines;
use crate::names::Names;
use crate::place::{Forgotten, Kind, Mark, Message, Noted, Place, What};
use nurseries::Nursery;
pub(crate) use nurseries::Width;
use std::collections::{HashMap, VecDeque};
use std::fs::File;
use std::io::{self, BufRead, BufReader, Write};
use std::net::{Shutdown, TcpStream};
use std::sync::atomic::{AtomicBool, AtomicI32, AtomicU64, Ordering};
use std::sync::mpsc::{self, Sender};
use std::sync::{Arc, Condvar, Mutex, MutexGuard, PoisonError};
use std::thread;
use std::time::{Duration, Instant};

const MOST_EVENTS: usize = 16384;
/// So many reports are on their way before the program waits, and it goes on at so few.
const MOST_WAITING: usize = 8_000;
const FEW_WAITING: usize = 4_000;
const REST: Duration = Duration::from_millis(10);
/// When what waits to become one event with others is reported for the first time. Each later time takes twice as long.
const FIRST_PATIENCE: Duration = Duration::from_millis(250);
const ANSWER_WAIT: Duration = Duration::from_secs(10);
const END_WAIT: Duration = Duration::from_secs(60);
/// So long the end of the process waits for the journal's last rows, once tracing is over.
const CLOSE_WAIT: Duration = Duration::from_secs(10);
const GONE: &str = "the collector is gone";

/// A task, by its place among those of this process.
pub(crate) type Task = usize;

/// The end of a task, for those who only look.
pub(crate) static END: What = What::new("end", "end", "see the end");

/// The rows of an event that stands for all that its task touched between two other events.
#[derive(Default)]
struct Touches {
    /// The event, once the collector has answered.
    event: Option<Event>,
    is_closed: bool,
    fresh: Vec<Row>,
}

/// What a report may be refused for, with nothing wrong.
#[derive(Clone, Copy, PartialEq, Eq)]
enum Refusable {
    Never,
    /// The task has the message already.
    Received,
    /// The message is of another process. It was never sent, or this task has it.
    Foreign,
    /// The task is that of another process, which was killed or was not traced.
    Child,
}

impl Refusable {
    fn takes(self, reply: &str) -> bool {
        let codes: &[&str] = match self {
            Refusable::Never => &[],
            Refusable::Received => &["407"],
            Refusable::Foreign => &["405", "407"],
            Refusable::Child => &["405", "407", "408", "409"],
        };
        codes.iter().any(|code| reply.starts_with(code))
    }
}

/// A report that is on its way.
struct Report {
    request: String,
    stands_for: StandsFor,
    refusable: Refusable,
    answered: Option<Sender<()>>,
}

enum StandsFor {
    Row(Row),
    Touches(u64),
}

/// What was sent.
#[derive(Clone, Copy, PartialEq, Eq)]
enum Sent {
    Some,
    /// All that was noted. The journal has its last line.
    All,
    /// The last that is sent at all.
    Last,
}

/// How far the process is.
#[derive(Clone, Copy, Debug, PartialEq, Eq)]
enum Stage {
    Running,
    /// The process ends. What others still do is reported at once, and each of them waits for it.
    Ending,
    /// Nothing is reported any more.
    Over,
}

struct State {
    lines: Lines,
    names: Names,
    unsent: String,
    unwritten: String,
    outstanding: VecDeque<Report>,
    touches: HashMap<u64, Touches>,
    touch_events: u64,
    reports: usize,
    messages: usize,
    children: usize,
    is_late: bool,
    /// The name of the process, in full.
    process: String,
    /// Whether the relay divides the trace into parts before it is full.
    has_parts: bool,
    forgotten: Arc<Forgotten>,
    /// Tasks that nobody can wait for any more, since the relay was told so last.
    left: Vec<Arc<str>>,
    /// Messages that were for one task alone, which has received them, since then.
    received: Vec<String>,
    width: Width,
    /// Those that may still start tasks or be joined.
    nurseries: HashMap<Task, Nursery>,
    /// In a child process, a task that comes after all that have ended and that nobody waits for.
    keeper: Option<Task>,
    stage: Stage,
    /// How often somebody wanted the journal to have all that was noted, and how many of them it has served.
    wanted: u64,
    settled: u64,
    /// Whether the journal has all that it will ever have.
    is_closed: bool,
    /// Standard error is being told why tracing stops.
    is_telling: bool,
    last_line: String,
    /// Whether another process of the trace has started this one.
    is_child: bool,
    patience: Duration,
    impatient_at: Instant,
}

pub(crate) struct Tracer {
    state: Mutex<State>,
    changed: Condvar,
    is_over: AtomicBool,
    locks: AtomicU64,
    stream: TcpStream,
    /// A signal that ends the process, once what was noted is reported.
    signal: AtomicI32,
    journal: Option<String>,
}

/// The task of this process, and the one that starts the tasks of threads that nobody was seen to start.
pub(crate) const MAIN: Task = 0;
const OTHERS: Task = 1;

impl Tracer {
    /// Begins to report where the environment says.
    pub fn new(environment: &Environment) -> io::Result<Arc<Tracer>> {
        let stream = TcpStream::connect(("127.0.0.1", environment.port))?;
        stream.set_nodelay(true)?;
        let mut replies = BufReader::new(stream.try_clone()?);
        let parts = if environment.has_parts { "\nparts" } else { "" };
        let count = ask(&stream, &mut replies, &format!("report {}{parts}\ncount", environment.tenant))?;
        if !count.starts_with("200 ") {
            return Err(io::Error::other(format!("tenant {} at port {}: {count}", environment.tenant, environment.port)));
        }
        let state = State::begin(environment, |request| ask(&stream, &mut replies, request))?;
        let (journal, path) = environment.open_journal()?.unzip();
        let sending = stream.try_clone()?;
        let tracer = Arc::new(Tracer {
            state: Mutex::new(state),
            changed: Condvar::new(),
            is_over: AtomicBool::new(false),
            locks: AtomicU64::new(0),
            stream,
            signal: AtomicI32::new(0),
            journal: path,
        });
        let (sends, reads) = (tracer.clone(), tracer.clone());
        thread::Builder::new().name("itc_trace sender".into()).spawn(move || sends.send_all(sending, journal))?;
        thread::Builder::new().name("itc_trace reader".into()).spawn(move || reads.read_all(replies))?;
        Ok(tracer)
    }

    pub fn is_over(&self) -> bool {
        self.is_over.load(Ordering::Relaxed)
    }

    fn state(&self) -> MutexGuard<'_, State> {
        self.state.lock().unwrap_or_else(PoisonError::into_inner)
    }

    // What tasks do. Nothing is noted once tracing is over.

    /// Does this with all that is known. Gives where the task is then.
    fn act(&self, task: Task, act: impl FnOnce(&mut State)) -> Arc<Place> {
        let mut state = self.state();
        if state.outstanding.len() > MOST_WAITING {
            let waits = |state: &mut State| state.outstanding.len() > FEW_WAITING && state.stage != Stage::Over;
            state = self.changed.wait_while(state, waits).unwrap_or_else(PoisonError::into_inner);
        }
        if state.lines.get(task).is_none() {
            state.tell_late();
            return Place::new(task);
        }
        act(&mut state);
        let place = state.lines[task].last().place.clone();
        if state.stage == Stage::Ending {
            state.leave(task);
            self.settle(state);
        }
        place
    }

    /// Where the task is.
    pub fn here(&self, task: Task) -> Arc<Place> {
        self.state().lines.get(task).map_or_else(|| Place::new(task), |line| line.open.back().expect(LAST).place.clone())
    }

    /// The task reads or writes the thing, which is of this process if it is not one across all.
    pub fn touch(&self, task: Task, thing: &str, touch: &Touch, site: Site, function: Option<Arc<str>>, held: &[LockName]) -> Arc<Place> {
        self.act(task, |state| state.touch(task, thing, touch, site, function, held))
    }

    /// The task has waited for the last of these locks, and holds the others.
    pub fn acquire(&self, task: Task, locks: Vec<HeldLock>, function: Option<Arc<str>>) -> Arc<Place> {
        self.act(task, |state| state.acquire(task, locks, function))
    }

    /// The task comes after the place. Gives where it is then, if that is another place.
    pub fn take(&self, task: Task, mark: &Mark, site: Site) -> Option<Arc<Place>> {
        (mark.place.task != task).then(|| self.act(task, |state| state.take(task, mark, site)))
    }

    pub fn spawn(&self, parent: Task, hint: &str, site: Site) -> (Task, Arc<Place>) {
        let mut child = MAIN;
        let place = self.act(parent, |state| child = state.spawn(parent, hint, site));
        (child, place)
    }

    /// The task of a thread that nobody was seen to start.
    pub fn stranger(&self, hint: &str) -> Task {
        self.state().spawn(OTHERS, hint, None)
    }

    /// The task does nothing more. Whoever joins it reports its end, or nobody does if nobody can.
    pub fn end(&self, task: Task) {
        let mut state = self.state();
        if state.lines.get(task).is_none() {
            return;
        }
        state.lines[task].has_ended = true;
        if state.stage == Stage::Ending {
            state.leave(task);
            self.settle(state);
        }
    }

    /// Nobody can wait for the task any more.
    pub fn forget(&self, task: Task) {
        let mut state = self.state();
        if state.lines.get(task).is_some_and(|line| line.has_ended) {
            state.forget(task);
        }
    }

    /// Those of the tasks that do nothing more.
    pub fn ended(&self, tasks: impl Iterator<Item = Task>) -> Vec<Task> {
        let state = self.state();
        tasks.filter(|task| state.lines.get(*task).map_or(true, |line| line.has_ended)).collect()
    }

    /// The task has seen that the child is done.
    pub fn join(&self, task: Task, child: Task, site: Site) -> Arc<Place> {
        self.act(task, |state| state.join(task, child, site))
    }

    /// Sends a message to another process. It returns once the collector has it, so that no receipt can come before.
    pub fn outgoing(&self, task: Task, site: Site) -> Option<String> {
        let (answered, answer) = mpsc::channel();
        let message = self.state().send_outside(task, site, answered);
        self.await_answer(&answer).then_some(message)
    }

    fn await_answer(&self, answer: &mpsc::Receiver<()>) -> bool {
        self.changed.notify_all();
        answer.recv_timeout(ANSWER_WAIT).is_ok() && !self.is_over()
    }

    pub fn incoming(&self, task: Task, message: &str, site: Site) -> Arc<Place> {
        self.act(task, |state| state.receive_outside(task, message, site))
    }

    /// Starts the task of a child process. It returns once the collector has it.
    pub fn begin_child(&self, task: Task, hint: &str, site: Site) -> Option<(Child, &str)> {
        let (answered, answer) = mpsc::channel();
        let child = self.state().begin_child(task, hint, site, answered);
        self.await_answer(&answer).then_some((child, self.journal.as_deref().unwrap_or_default()))
    }

    /// The task has seen that the child process is over.
    pub fn join_process(&self, task: Task, child: &str, site: Site) -> Arc<Place> {
        self.act(task, |state| state.join_process(task, child, site))
    }

    /// What tells a lock from others.
    pub fn lock_number(&self) -> u64 {
        self.locks.fetch_add(1, Ordering::Relaxed) + 1
    }

    // The end

    /// Reports all that was noted, and writes the journal's last line. What others do from then on is reported at once. At the end of
    /// the process a child ends its task, behind all tasks that have ended by then.
    pub fn finish(&self, is_end: bool) {
        let mut state = self.state();
        if state.stage == Stage::Over {
            return self.close(state);
        }
        state.stage = Stage::Ending;
        if is_end && state.is_child {
            state.end_child();
        }
        state.leave_all();
        self.settle(state);
    }

    /// Waits until the journal has all that was noted, and its last line.
    fn settle(&self, mut state: MutexGuard<'_, State>) {
        state.wanted += 1;
        let wanted = state.wanted;
        self.changed.notify_all();
        let waits = |state: &mut State| state.settled < wanted && state.stage != Stage::Over;
        let mut left = usize::MAX;
        while waits(&mut state) {
            if state.outstanding.len() == left {
                self.give_up_in(state, "collector", "the collector does not answer");
                return self.close(self.state());
            }
            left = state.outstanding.len();
            state = self.changed.wait_timeout_while(state, END_WAIT, waits).unwrap_or_else(PoisonError::into_inner).0;
        }
        if state.stage == Stage::Over {
            self.close(state);
        }
    }

    /// Tracing is over: waits until the journal has what was noted by then, and why it is over.
    fn close(&self, state: MutexGuard<'_, State>) {
        let _ = self.changed.wait_timeout_while(state, CLOSE_WAIT, |state| !state.is_closed || state.is_telling);
    }

    /// A signal ends the process. What was noted is reported first, by the thread that sends.
    pub fn is_ended_by(&self, signal: i32) {
        self.signal.store(signal, Ordering::Relaxed);
    }

    /// Ends tracing in the middle. The program goes on.
    fn give_up(&self, cause: &str, reason: &str) {
        self.give_up_in(self.state(), cause, reason);
    }

    fn give_up_in(&self, mut state: MutexGuard<'_, State>, cause: &str, reason: &str) {
        if state.stage == Stage::Over {
            return;
        }
        state.gather_rows();
        state.stage = Stage::Over;
        self.is_over.store(true, Ordering::Relaxed);
        crate::traced::is_over();
        state.unwritten += &journal::unseen(cause, reason);
        state.forget_all();
        state.is_telling = true;
        drop(state);
        self.changed.notify_all();
        let _ = self.stream.shutdown(Shutdown::Both);
        eprintln!("itc_trace: tracing stops: {reason}");
        self.state().is_telling = false;
        self.changed.notify_all();
    }

    // The thread that sends, and writes the journal

    fn send_all(&self, mut stream: TcpStream, mut journal: Option<File>) {
        let mut dying = 0;
        loop {
            let signal = self.signal.swap(0, Ordering::Relaxed);
            if signal != 0 {
                dying = signal;
                self.begin_dying(signal);
            }
            let sent = self.send_some(&mut stream, &mut journal);
            if dying != 0 && sent != Sent::Some {
                ending::is_reported(dying);
                dying = 0;
            }
            if sent == Sent::Last {
                break;
            }
        }
        let _ = self.stream.shutdown(Shutdown::Both);
        while dying == 0 {
            thread::sleep(REST); // A signal may still want to end the process.
            dying = self.signal.swap(0, Ordering::Relaxed);
        }
        ending::is_reported(dying);
    }

    fn begin_dying(&self, signal: i32) {
        let mut state = self.state();
        if state.stage != Stage::Over {
            state.stage = Stage::Ending;
            state.leave_all();
            state.unwritten += &journal::unseen("killed", &format!("the program was ended by {}", ending::name_of(signal)));
            state.wanted += 1;
        }
    }

    fn send_some(&self, stream: &mut TcpStream, journal: &mut Option<File>) -> Sent {
        let mut state = self.state();
        if state.unsent.is_empty() && state.stage != Stage::Over && !state.can_settle() {
            state = self.changed.wait_timeout(state, REST).unwrap_or_else(PoisonError::into_inner).0;
        }
        state.lose_patience();
        state.gather_rows();
        let (is_over, settles, wanted) = (state.stage == Stage::Over, state.can_settle(), state.wanted);
        let mut rows = std::mem::take(&mut state.unwritten);
        if settles {
            rows += &state.last_line;
        }
        let lines = state.take_unsent();
        drop(state);
        if let Some(Err(fault)) = journal.as_mut().map(|journal| journal.write_all(rows.as_bytes())) {
            self.give_up("journal", &format!("the journal cannot be written: {fault}"));
        } else if settles {
            self.state().settled = wanted;
            self.changed.notify_all();
        }
        if !is_over && stream.write_all(lines.as_bytes()).is_err() {
            self.give_up("collector", GONE);
        }
        if is_over {
            self.state().is_closed = true;
            self.changed.notify_all();
        }
        match (is_over, settles) {
            (true, _) => Sent::Last,
            (false, true) => Sent::All,
            (false, false) => Sent::Some,
        }
    }

    // The thread that reads replies

    fn read_all(&self, replies: BufReader<TcpStream>) {
        for reply in replies.lines() {
            let Ok(reply) = reply else { break };
            let mut state = self.state();
            match state.replied(&reply) {
                // The lock is kept: else the sender may take all for answered in between, and end the journal as a whole one.
                Some((cause, reason)) => self.give_up_in(state, cause, &reason),
                None => drop(state),
            }
            self.changed.notify_all();
        }
        self.give_up("collector", GONE);
    }
}

fn ask(mut stream: &TcpStream, replies: &mut BufReader<TcpStream>, lines: &str) -> io::Result<String> {
    stream.write_all(format!("{lines}\n").as_bytes())?;
    let mut reply = String::new();
    replies.read_line(&mut reply)?;
    match reply.strip_suffix('\n') {
        Some(reply) => Ok(reply.into()),
        None => Err(io::Error::new(io::ErrorKind::UnexpectedEof, "the collector has ended the session")),
    }
}

impl State {
    /// Takes a task of its own under root, in a trace that others report to as well, unless the process is a child that has one.
    fn begin(environment: &Environment, mut ask: impl FnMut(&str) -> io::Result<String>) -> io::Result<State> {
        let mut state = State {
            lines: Lines::default(),
            names: Names::default(),
            unsent: String::new(),
            unwritten: String::new(),
            outstanding: VecDeque::new(),
            touches: HashMap::new(),
            touch_events: 0,
            reports: 0,
            messages: 0,
            children: 0,
            is_late: false,
            process: environment.process.clone(),
            has_parts: environment.has_parts,
            forgotten: Arc::default(),
            left: Vec::new(),
            received: Vec::new(),
            width: environment.width,
            nurseries: HashMap::new(),
            keeper: None,
            stage: Stage::Running,
            wanted: 0,
            settled: 0,
            is_closed: false,
            is_telling: false,
            last_line: journal::END.into(),
            is_child: environment.child.is_some(),
            patience: FIRST_PATIENCE,
            impatient_at: Instant::now() + FIRST_PATIENCE,
        };
        let has_parts = environment.has_parts;
        let mut fresh = |parent: &str, hint: &str, numbered: &dyn Fn(usize) -> String| {
            for number in 1.. {
                let (name, asked) = (numbered(number), journal::now());
                let reply = ask(&format!("spawn {parent} {name}"))?;
                if let Some(event) = Event::of(&reply) {
                    let row = Row::new(&parent.into(), "spawn", None, format!("{hint}{name}"));
                    let time = if parent == "root" { journal::now() } else { asked }; // A process begins when it is answered.
                    let row = Row { time, ..row }.text(event, "", has_parts.then_some(name.as_str()));
                    return Ok((name, number, row));
                }
                if !reply.starts_with("402") {
                    return Err(io::Error::other(format!("spawn {parent} {name}: {reply}")));
                }
            }
            unreachable!("some name is free")
        };
        let tag = match &environment.child {
            Some(child) => {
                state.unwritten += &journal::child_begun(&child.tag, &format!("process {}", child.name));
                state.last_line = journal::child_ended(&child.tag);
                state.lines.add(child.task.as_str().into(), Known::default());
                child.tag.clone()
            }
            None => {
                let base = task_of(&environment.process);
                let numbered =
                    |number| if number == 1 { base.clone() } else { format!("{}{number}", &base[..base.len().min(MOST_NAME - 4)]) };
                let (name, number, row) = fresh("root", "start process ", &numbered)?;
                if number > 1 {
                    state.process += &format!(" {number}"); // What is its own is not that of the first one.
                }
                state.unwritten += &row;
                state.lines.add(name.into(), Known::default());
                tag_of(&environment.process)
            }
        };
        let main = state.lines[MAIN].name.clone();
        let tagged = |number| if number == 1 { tag.clone() } else { format!("{tag}{number}") };
        let (others, number, row) = fresh(&main, "start ", &|number| format!("{}_others", tagged(number)))?;
        state.unwritten += &row;
        if !state.is_child {
            state.unwritten += &journal::process(&state.process, &tagged(number));
        }
        state.names = Names::new(format!("{}_", tagged(number)), "others");
        state.lines.add(others.into(), Known::default());
        Ok(state)
    }

    /// Whether all that was noted is answered, and somebody wants the journal to say so.
    fn can_settle(&self) -> bool {
        self.stage == Stage::Ending && self.outstanding.is_empty() && self.unsent.is_empty() && self.settled < self.wanted
    }

    fn forget_all(&mut self) {
        self.outstanding.clear();
        self.touches.clear();
        self.unsent.clear();
        self.lines.each(|task, line| line.open = VecDeque::from([Segment::new(task)]));
    }

    // What tasks do

    fn touch(&mut self, task: Task, thing: &str, touch: &Touch, site: Site, function: Option<Arc<str>>, held: &[LockName]) {
        if self.stage == Stage::Over {
            return;
        }
        for (event, rows) in self.lines[task].grow(task) {
            self.add_rows(event, rows);
        }
        self.add(task, thing, touch, |state| {
            let kind = if touch.writes { "write" } else { "read" };
            let named = if touch.is_across { thing.to_string() } else { format!("{thing} of {}", state.process) };
            let row = Row::new(&state.lines[task].name, kind, site, format!("{kind} {thing}"));
            Row { thing: Some(named), held: held.to_vec(), function, ..row }
        });
    }

    /// A lock was waited for with others held. Where these were acquired is a part of what is told once.
    fn acquire(&mut self, task: Task, locks: Vec<HeldLock>, function: Option<Arc<str>>) {
        let Some((wanted, others)) = locks.split_last() else { return };
        if self.stage == Stage::Over {
            return;
        }
        for (event, rows) in self.lines[task].grow(task) {
            self.add_rows(event, rows);
        }
        let held: Vec<LockName> = others.iter().map(|one| one.lock).collect();
        let places: Vec<usize> = others.iter().map(|one| one.at.map_or(0, |at| at as *const _ as usize)).collect();
        let thing = format!("{} {places:?}", wanted.lock.number);
        let (at, label, touch) = (wanted.at, format!("acquire {}", wanted.lock.told()), Touch::new(false, false, wanted.at, &held));
        self.add(task, &thing, &touch, |state| Row {
            held,
            function,
            acquired: locks,
            ..Row::new(&state.lines[task].name, "local", at, label)
        });
    }

    /// Adds what a task has done to its last segment, if it has not done the same there. Only then the row is made.
    fn add(&mut self, task: Task, thing: &str, touch: &Touch, row: impl FnOnce(&State) -> Row) {
        let segment = self.lines[task].last();
        let is_first = segment.is_empty();
        if segment.adds(thing, touch) {
            if is_first {
                segment.time = journal::now();
            }
            let (event, row) = (segment.event, row(self));
            match event {
                Some(event) => self.add_rows(event, vec![row]),
                None => self.lines[task].last().rows.push(row),
            }
        }
        self.advance(task);
    }

    fn add_rows(&mut self, event: u64, rows: Vec<Row>) {
        if let Some(touches) = self.touches.get_mut(&event) {
            touches.fresh.extend(rows);
        }
    }

    /// Reports what stands behind no place that somebody may come after.
    fn advance(&mut self, task: Task) {
        let open = &mut self.lines[task].open;
        while open.len() > 1 && open[0].is_closed && !(open[0].has_mark() && open[0].place.unsent().next().is_some()) {
            open.pop_front();
        }
        if open.len() == 1 {
            self.tell_touches(task, 0);
        }
    }

    /// Reports the event of a segment, if it has touches and is not reported yet.
    fn tell_touches(&mut self, task: Task, place: usize) {
        let line = &mut self.lines[task];
        let (name, segment) = (line.name.clone(), &mut line.open[place]);
        if segment.event.is_some() || segment.rows.is_empty() {
            return;
        }
        self.touch_events += 1;
        segment.event = Some(self.touch_events);
        let mut rows = std::mem::take(&mut segment.rows);
        rows[0].time = segment.time.max(line.time);
        line.time = rows[0].time;
        line.events += 1;
        self.touches.insert(self.touch_events, Touches { event: None, is_closed: false, fresh: rows });
        let stands_for = StandsFor::Touches(self.touch_events);
        self.report(Report { request: format!("local {name}"), stands_for, refusable: Refusable::Never, answered: None });
    }

    /// Nothing is added to the event of a segment from now on.
    fn close(&mut self, task: Task, place: usize) {
        let segment = &mut self.lines[task].open[place];
        segment.is_closed = true;
        if let Some(touches) = segment.event.and_then(|event| self.touches.get_mut(&event)) {
            touches.is_closed = true;
        }
    }

    /// Sends the place at the end of a segment, as what this says.
    fn send(&mut self, task: Task, place: usize, noted: Noted) {
        self.close(task, place);
        let message = self.fresh_message(&noted.gives.hint());
        let line = &mut self.lines[task];
        let sent = line.open[place].place.clone();
        if sent.position() == 0 {
            line.position += 1;
            sent.is_sent_at(line.position);
        }
        let time = noted.time.max(line.time);
        let row = Row { lock: noted.gives.lock(), time, ..Row::new(&line.name, "send", noted.site, noted.gives.giving()) };
        let forgotten = self.has_parts.then(|| self.forgotten.clone());
        sent.slot(noted.gives.kind()).is_sent_as(Message { name: message.as_str().into(), forgotten });
        let request = format!("send {} {message}", line.name);
        self.tell(task, request, row, Refusable::Never);
    }

    /// Reports all of a segment, and the place at its end if somebody may come after it.
    fn tell_whole(&mut self, task: Task, place: usize) {
        self.tell_touches(task, place);
        if self.lines[task].open[place].has_mark() {
            let unsent: Vec<Noted> = self.lines[task].open[place].place.unsent().collect();
            for noted in unsent {
                self.send(task, place, noted);
            }
        }
        self.close(task, place);
    }

    /// Before the task goes on: all that it did is reported.
    fn leave(&mut self, task: Task) {
        for place in 0..self.lines[task].open.len() {
            self.tell_whole(task, place);
        }
        let open = &mut self.lines[task].open;
        let last = open.pop_back().expect(LAST);
        open.clear();
        let mut next = Segment::new(task);
        if !last.has_mark() && last.place.position() == 0 {
            next.place = last.place; // Nobody knows it: it may as well stand for the end of the next one.
        }
        open.push_back(next);
    }

    /// At the end of the process, or after some time: what waits to become one with other touches is reported.
    fn tell_waiting(&mut self, task: Task) -> bool {
        let (before, last) = (self.reports, self.lines[task].open.len() - 1);
        for place in 0..last {
            self.tell_whole(task, place);
        }
        self.lines[task].open.drain(..last);
        self.tell_touches(task, 0);
        self.reports > before
    }

    fn leave_all(&mut self) {
        for task in self.lines.of(|_| true) {
            if self.lines.get(task).is_none() {
                continue; // It is a nursery, and has ended with its own task.
            }
            self.tell_waiting(task);
            if self.lines[task].has_ended {
                self.tell_end(task);
            } else {
                self.end_nursery(task);
            }
        }
    }

    fn end_child(&mut self) {
        if let Some(keeper) = self.keeper.take() {
            self.lines[keeper].has_ended = true;
        }
        self.lines.of(|line| line.has_ended).into_iter().for_each(|task| self.join(MAIN, task, None));
        self.tell_end(MAIN);
    }

    fn lose_patience(&mut self) {
        let now = Instant::now();
        if now < self.impatient_at || self.stage == Stage::Over {
            return;
        }
        let tasks = self.lines.of(|line| line.open.len() > 1);
        let told = tasks.into_iter().filter(|task| self.tell_waiting(*task)).count();
        if told > 0 {
            self.patience *= 2;
        }
        self.impatient_at = now + self.patience;
    }

    fn take(&mut self, task: Task, mark: &Mark, site: Site) {
        let (place, gives) = (&mark.place, mark.noted.gives);
        let kind = gives.kind();
        if self.stage == Stage::Over || place.task == task || self.lines[task].known.has(place, kind) {
            return;
        }
        if place.slot(kind).message().is_none() {
            self.give(place, mark.noted);
        }
        let Some(message) = place.slot(kind).message() else { return };
        self.lines[task].known.add(place.task, place.position(), kind);
        self.leave(task);
        let row = Row { lock: gives.lock(), ..Row::new(&self.lines[task].name, "recv", site, gives.taking()) };
        self.tell(task, format!("recv {} {message}", row.task), row, Refusable::Received);
    }

    /// Sends a place, and reports all that its task did before.
    fn give(&mut self, place: &Arc<Place>, noted: Noted) {
        let task = place.task;
        let Some(line) = self.lines.get(task) else { return };
        let Some(index) = line.open.iter().position(|segment| Arc::ptr_eq(&segment.place, place)) else { return };
        for before in 0..index {
            self.tell_whole(task, before);
        }
        self.tell_touches(task, index);
        self.send(task, index, noted);
        self.lines[task].open.drain(..index);
    }

    fn spawn(&mut self, parent: Task, hint: &str, site: Site) -> Task {
        let name: Arc<str> = self.names.fresh(hint).into();
        self.leave(parent);
        let starter = self.start(parent, &name, site);
        let mut known = self.lines[parent].known.clone();
        known.add(parent, self.lines[parent].position, Kind::Meant);
        let child = self.lines.add(name, known);
        self.lines[child].starter = Some(starter);
        child
    }

    /// Reports the end of a task that does nothing more.
    fn tell_end(&mut self, task: Task) {
        self.leave(task);
        self.leave_nursery(task);
        let row = Row::new(&self.lines[task].name, "end", None, "end".into());
        self.tell(task, format!("end {}", row.task), row, Refusable::Never);
        self.lines.remove(task);
    }

    /// Reports the end of a task that nobody can wait for any more.
    fn forget(&mut self, task: Task) {
        if self.is_child && self.stage != Stage::Over {
            let keeper = self.keeper.take().unwrap_or_else(|| self.spawn(OTHERS, "keeper", None));
            self.keeper = Some(keeper);
            return self.join(keeper, task, None);
        }
        let (name, starter) = (self.lines[task].name.clone(), self.lines[task].starter);
        self.tell_end(task);
        if self.has_parts {
            self.left.push(name);
        }
        self.not_joined(starter);
    }

    /// A task goes on though it has ended, as what is local to a thread may.
    fn tell_late(&mut self) {
        if self.stage != Stage::Over && !self.is_late {
            self.is_late = true;
            self.unwritten += &journal::unseen("tracer", "a task has gone on behind its end");
        }
    }

    fn join(&mut self, task: Task, child: Task, site: Site) {
        if self.stage == Stage::Over || task == child || self.lines.get(child).map_or(true, |line| !line.has_ended) {
            return;
        }
        let (name, position, starter) = (self.lines[child].name.clone(), self.lines[child].position, self.lines[child].starter);
        self.tell_end(child);
        self.lines[task].known.add(child, position, Kind::Meant);
        self.leave(task);
        let row = Row::new(&self.lines[task].name, "join", site, format!("join {name}"));
        self.tell(task, format!("join {} {name}", row.task), row, Refusable::Never);
        self.joined(task, starter);
    }

    fn send_outside(&mut self, task: Task, site: Site, answered: Sender<()>) -> String {
        self.leave(task);
        let message = self.fresh_message("out");
        let row = Row::new(&self.lines[task].name, "send", site, "send to another process".into());
        let request = format!("send {} {message}", row.task);
        self.tell_and_answer(task, request, row, Refusable::Never, Some(answered));
        message
    }

    fn receive_outside(&mut self, task: Task, message: &str, site: Site) {
        self.leave(task);
        let row = Row::new(&self.lines[task].name, "recv", site, "receive from another process".into());
        self.tell(task, format!("recv {} {message}", row.task), row, Refusable::Foreign);
    }

    fn begin_child(&mut self, task: Task, hint: &str, site: Site, answered: Sender<()>) -> Child {
        self.leave(task);
        self.children += 1;
        let name = self.names.fresh(hint);
        let row = Row::new(&self.lines[task].name, "spawn", site, format!("start {name}"));
        let request = format!("spawn {} {name}", row.task);
        self.tell_and_answer(task, request, row, Refusable::Never, Some(answered));
        let tag = format!("{}c{}", self.names.prefix().trim_end_matches('_'), self.children);
        let own = name.strip_prefix(self.names.prefix()).unwrap_or(&name);
        Child { tag, name: format!("{}/{own}", self.process), task: name }
    }

    fn join_process(&mut self, task: Task, child: &str, site: Site) {
        self.leave(task);
        let row = Row::new(&self.lines[task].name, "join", site, format!("join {child}"));
        self.tell(task, format!("join {} {child}", row.task), row, Refusable::Child);
    }

    // Reports

    /// Reports an event, which is now if its row tells no other time.
    fn tell(&mut self, task: Task, request: String, row: Row, refusable: Refusable) {
        self.tell_and_answer(task, request, row, refusable, None);
    }

    fn tell_and_answer(&mut self, task: Task, request: String, row: Row, refusable: Refusable, answered: Option<Sender<()>>) {
        let time = row.time.or_else(journal::now).max(self.lines[task].time);
        self.lines[task].time = time;
        self.lines[task].events += 1;
        self.report(Report { request, stands_for: StandsFor::Row(Row { time, ..row }), refusable, answered });
    }

    fn report(&mut self, report: Report) {
        self.reports += 1;
        if self.stage == Stage::Over || !self.has_parts && self.reports > MOST_EVENTS + 1 {
            return; // No trace takes so many, and the reply that says so is on its way.
        }
        self.tell_gone();
        self.unsent += &report.request;
        self.unsent.push('\n');
        self.outstanding.push_back(report);
    }

    fn fresh_message(&mut self, hint: &str) -> String {
        self.messages += 1;
        self.names.numbered(hint, self.messages)
    }

    /// What is to be sent.
    fn take_unsent(&mut self) -> String {
        self.tell_gone();
        std::mem::take(&mut self.unsent)
    }

    /// Tells what gives no order any more, behind all receipts of it. The next part of the trace begins without it.
    fn tell_gone(&mut self) {
        self.forgotten.take().iter().for_each(|message| self.unsent += &format!("forget {message}\n"));
        self.received.drain(..).for_each(|message| self.unsent += &format!("forget {message}\n"));
        self.left.drain(..).for_each(|task| self.unsent += &format!("leave {task}\n"));
    }

    /// Brings the journal up to what was touched by now.
    fn gather_rows(&mut self) {
        let (unwritten, prefix) = (&mut self.unwritten, self.names.prefix());
        self.touches.retain(|_, touches| {
            let Some(event) = touches.event else { return true };
            touches.fresh.drain(..).for_each(|row| *unwritten += &row.text(event, prefix, None));
            !touches.is_closed
        });
    }

    /// Takes over a reply. Gives the cause and the reason, if tracing stops.
    fn replied(&mut self, reply: &str) -> Option<(&'static str, String)> {
        let report = self.outstanding.pop_front()?;
        let fault = match (Event::of(reply), report.stands_for) {
            (Some(event), StandsFor::Row(row)) => {
                let of = report.request.split(' ').nth(2).filter(|_| self.has_parts);
                self.unwritten += &row.text(event, self.names.prefix(), of);
                None
            }
            (Some(event), StandsFor::Touches(number)) => {
                self.touches.entry(number).or_default().event = Some(event);
                None
            }
            (None, _) if ["413", "414", "415"].iter().any(|code| reply.starts_with(code)) => {
                Some(("full", format!("the trace is full ({reply})")))
            }
            (None, _) if report.refusable.takes(reply) => None,
            (None, _) => Some(("tracer", format!("{}: {reply}", report.request))),
        };
        if let Some(answered) = report.answered {
            let _ = answered.send(());
        }
        fault
    }
}
