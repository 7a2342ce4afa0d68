// Replays the requests that `itc_trace replay` serves, in plain Rust, for speed alone: no proofs.
//
// `plain [--points] [--events N] [--tasks N] [--messages N] TENANT..` gives the program's replies byte for byte, and refuses in
// the same order. It leaves out: refusing for want of memory (the process ends), the bound on reads, the program's statuses and
// lines on standard error, and the ranges of its words (what is no number ends it, names of tenants and limits are taken as
// they stand). A line that one buffer does not hold is kept whole until its end is read.
//
// Rows and the values in trees have 32 bits. The first receipt of a message lies beside its send; whoever received it is told
// by a bit of his, without a look at the receipts. No predecessor is followed: order and lists are told by the trees. Two
// events are compared one way, since by their numbers no later one happened before an earlier one. A list compares each event
// that by its number can be in it, and a cut only those of tasks that have none in it so far, back from its event. With
// `--points` it keeps of each event a point that it raised, and its value there, and two events are compared at the point of
// the earlier one alone.
#[allow(dead_code)]
#[path = "../common/clock.rs"]
mod clock;

use clock::{write_number, write_stamp, Id, Tree, ZERO};
use std::cmp::Ordering;
use std::collections::hash_map::{Entry, HashMap};
use std::ffi::{c_int, c_void};
use std::hash::{BuildHasherDefault, Hash, Hasher};
use std::io::{stdin, stdout, Read, Result as IoResult, Write};

/// Of events, tasks and messages, and the values in trees, none of which is greater than the number of events.
type Number = u32;

const ROOM: usize = 65536;

const MOST_BYTES: usize = 200;

const NAME_BYTES: usize = 24;

static IS_OF_NAMES: [bool; 256] = {
    let mut table = [false; 256];
    let mut byte = 0;
    while byte < 256 {
        table[byte] = (byte as u8).is_ascii_alphanumeric() || byte as u8 == b'_';
        byte += 1;
    }
    table
};

/// The text, and then zeros, by words of eight bytes.
#[derive(Clone, Copy, PartialEq, Eq)]
struct Name([u64; 3]);

impl Name {
    /// The name that a text begins with, and what stands behind it.
    fn read_first(text: &[u8]) -> Option<(Name, &[u8])> {
        let length = text.iter().position(|byte| !IS_OF_NAMES[usize::from(*byte)]).unwrap_or(text.len());
        if length == 0 || length > NAME_BYTES {
            return None;
        }
        let (name, rest) = text.split_at(length);
        let mut bytes = [0; NAME_BYTES];
        bytes[..length].copy_from_slice(name);
        let word = |at: usize| u64::from_le_bytes(bytes[8 * at..8 * at + 8].try_into().expect("eight bytes"));
        Some((Name([word(0), word(1), word(2)]), rest))
    }

    fn read(text: &[u8]) -> Option<Name> {
        whole(Name::read_first(text))
    }

    fn write(&self, out: &mut Vec<u8>) {
        let end = out.len() + self.length();
        for word in self.0 {
            out.extend_from_slice(&word.to_le_bytes());
        }
        out.truncate(end);
    }

    fn length(&self) -> usize {
        let zeros = match self.0 {
            [word, 0, 0] => word.leading_zeros() + 128,
            [_, word, 0] => word.leading_zeros() + 64,
            [_, _, word] => word.leading_zeros(),
        };
        NAME_BYTES - zeros as usize / 8
    }
}

impl Hash for Name {
    fn hash<H: Hasher>(&self, state: &mut H) {
        self.0.iter().for_each(|word| state.write_u64(*word));
    }
}

/// Mixes words by a product with an odd number, and gives the upper half, to which all bits came.
#[derive(Default)]
struct Mixed(u64);

impl Hasher for Mixed {
    fn write(&mut self, bytes: &[u8]) {
        bytes.iter().for_each(|byte| self.write_u64(u64::from(*byte)));
    }

    fn write_u64(&mut self, word: u64) {
        self.0 = (self.0.rotate_left(29) ^ word).wrapping_mul(0x9e37_79b9_7f4a_7c15);
    }

    fn finish(&self) -> u64 {
        self.0 ^ self.0 >> 32
    }
}

type ByName<T> = HashMap<Name, T, BuildHasherDefault<Mixed>>;

enum Request {
    Local(Name),
    Spawn(Name, Name),
    Send(Name, Name),
    Recv(Name, Name),
    End(Name),
    Join(Name, Name),
    Order(Number, Number),
    Past(Number),
    Concurrent(Number),
    Cut(Number),
    Event(Number),
    Stamp(Number),
    Task(Name),
    Message(Name),
    Count,
}

fn split_first(bytes: &[u8]) -> (&[u8], Option<&[u8]>) {
    match bytes.iter().position(|byte| *byte == b' ') {
        Some(at) => (&bytes[..at], Some(&bytes[at + 1..])),
        None => (bytes, None),
    }
}

/// The number that a text begins with, and what stands behind it.
fn first_number(text: &[u8]) -> Option<(Number, &[u8])> {
    let (mut value, mut length) = (0, 0);
    while let Some(digit) = text.get(length).map(|byte| byte.wrapping_sub(b'0')).filter(|digit| *digit < 10) {
        if length == 9 {
            return None;
        }
        value = 10 * value + Number::from(digit);
        length += 1;
    }
    if length == 0 || length > 1 && text[0] == b'0' {
        return None;
    }
    Some((value, &text[length..]))
}

/// What was read, if nothing stands behind it.
fn whole<T>(read: Option<(T, &[u8])>) -> Option<T> {
    read.filter(|(_, rest)| rest.is_empty()).map(|(value, _)| value)
}

fn one<T>(words: Option<&[u8]>, read: fn(&[u8]) -> Option<(T, &[u8])>) -> Option<T> {
    whole(read(words?))
}

fn two<T>(words: Option<&[u8]>, read: fn(&[u8]) -> Option<(T, &[u8])>) -> Option<(T, T)> {
    let (first, rest) = read(words?)?;
    Some((first, whole(read(rest.strip_prefix(b" ")?))?))
}

impl Request {
    fn read(line: &[u8]) -> Option<Request> {
        let (keyword, words) = split_first(line);
        match keyword {
            b"local" => one(words, Name::read_first).map(Request::Local),
            b"spawn" => two(words, Name::read_first).map(|(task, child)| Request::Spawn(task, child)),
            b"send" => two(words, Name::read_first).map(|(task, message)| Request::Send(task, message)),
            b"recv" => two(words, Name::read_first).map(|(task, message)| Request::Recv(task, message)),
            b"end" => one(words, Name::read_first).map(Request::End),
            b"join" => two(words, Name::read_first).map(|(task, child)| Request::Join(task, child)),
            b"order" => two(words, first_number).map(|(first, second)| Request::Order(first, second)),
            b"past" => one(words, first_number).map(Request::Past),
            b"concurrent" => one(words, first_number).map(Request::Concurrent),
            b"cut" => one(words, first_number).map(Request::Cut),
            b"event" => one(words, first_number).map(Request::Event),
            b"stamp" => one(words, first_number).map(Request::Stamp),
            b"task" => one(words, Name::read_first).map(Request::Task),
            b"message" => one(words, Name::read_first).map(Request::Message),
            b"count" if words.is_none() => Some(Request::Count),
            _ => None,
        }
    }
}

#[derive(Clone, Copy)]
enum Kind {
    Local,
    Spawn,
    Send,
    Recv,
    End,
    Join,
}

impl Kind {
    fn text(self) -> &'static [u8] {
        match self {
            Kind::Local => b"local ",
            Kind::Spawn => b"spawn ",
            Kind::Send => b"send ",
            Kind::Recv => b"recv ",
            Kind::End => b"end ",
            Kind::Join => b"join ",
        }
    }
}

/// A point that an event raised, by its halves, and the event's value there: a later event knows of it where it is no less.
struct Point {
    halves: u128,
    value: Number,
}

struct Row {
    tree: Tree,
    /// The place of its task.
    place: Number,
    /// The place of its task's id after it.
    id: Number,
    /// Increasing; then 0 where there are less than two.
    preds: [Number; 2],
    /// The place of the task or the message that it names, where it names one.
    named: Number,
    kind: Kind,
}

#[derive(Clone, Copy)]
enum State {
    Live,
    Ended,
    Joined,
}

#[derive(Clone, Copy)]
struct Task {
    name: Name,
    state: State,
    /// Its last event, else the event that started it, else 0.
    last: Number,
    /// The place of its id.
    id: Number,
}

/// The events that received a message, and the places of their tasks.
enum Receipts {
    None,
    One(Number, Number),
    Many(Box<ManyReceipts>),
}

struct ManyReceipts {
    events: Vec<Number>,
    /// A bit for each place of a task, up to the greatest that received it.
    places: Vec<u64>,
}

impl ManyReceipts {
    fn has(&self, place: Number) -> bool {
        self.places.get(place as usize / 64).is_some_and(|bits| bits >> (place % 64) & 1 == 1)
    }

    fn add(&mut self, event: Number, place: Number) {
        let word = place as usize / 64;
        if self.places.len() <= word {
            self.places.resize(word + 1, 0);
        }
        self.places[word] |= 1 << (place % 64);
        self.events.push(event);
    }
}

impl Receipts {
    fn has(&self, place: Number) -> bool {
        match self {
            Receipts::None => false,
            Receipts::One(_, first) => *first == place,
            Receipts::Many(many) => many.has(place),
        }
    }

    fn add(&mut self, event: Number, place: Number) {
        match self {
            Receipts::None => *self = Receipts::One(event, place),
            Receipts::One(first, first_place) => {
                let mut many = ManyReceipts { events: Vec::new(), places: Vec::new() };
                many.add(*first, *first_place);
                many.add(event, place);
                *self = Receipts::Many(Box::new(many));
            }
            Receipts::Many(many) => many.add(event, place),
        }
    }

    fn events(&self) -> &[Number] {
        match self {
            Receipts::None => &[],
            Receipts::One(event, _) => std::slice::from_ref(event),
            Receipts::Many(many) => &many.events,
        }
    }
}

struct Message {
    name: Name,
    sent: Number,
    receipts: Receipts,
}

/// What is asked for by words.
#[derive(Clone, Copy)]
struct Limits {
    events: usize,
    tasks: usize,
    messages: usize,
    keeps_points: bool,
}

type Refusal = &'static str;

fn preds(first: Number, second: Number) -> [Number; 2] {
    if first == second { [first, 0] } else { [first.min(second), first.max(second)] }
}

/// Writes the list of these events without those that are 0.
fn write_list(out: &mut Vec<u8>, events: &[Number]) {
    let events = events.iter().filter(|event| **event != 0);
    write_number(out, events.clone().count() as Number);
    for event in events {
        out.push(b' ');
        write_number(out, *event);
    }
}

/// Writes `200`, how many events these are, and the events.
fn tell_list(events: impl Iterator<Item = Number>, out: &mut Vec<u8>) {
    out.extend_from_slice(b"200 ");
    let start = out.len();
    let mut count = 0;
    for event in events {
        out.push(b' ');
        write_number(out, event);
        count += 1;
    }
    let end = out.len();
    write_number(out, count);
    let digits = out.len() - end;
    out[start..].rotate_right(digits);
}

struct Tenant {
    limits: Limits,
    rows: Vec<Row>,
    /// Of each event, if points are kept: none where all that it raised lies too deep.
    points: Vec<Option<Point>>,
    /// Each id that some task has or had.
    ids: Vec<Id>,
    /// The first is `root`.
    tasks: Vec<Task>,
    places: ByName<Number>,
    messages: Vec<Message>,
    message_places: ByName<Number>,
}

impl Tenant {
    fn new(limits: Limits) -> Tenant {
        let root = Name::read(b"root").expect("a name");
        Tenant {
            limits,
            rows: Vec::new(),
            points: Vec::new(),
            ids: vec![Id::One],
            tasks: vec![Task { name: root, state: State::Live, last: 0, id: 0 }],
            places: [(root, 0)].into_iter().collect(),
            messages: Vec::new(),
            message_places: ByName::default(),
        }
    }

    fn place(&self, name: &Name) -> Result<Number, Refusal> {
        self.places.get(name).copied().ok_or("401 no task")
    }

    fn task(&self, place: Number) -> &Task {
        &self.tasks[place as usize]
    }

    fn live(&self, name: &Name) -> Result<Number, Refusal> {
        let place = self.place(name)?;
        match self.task(place).state {
            State::Live => Ok(place),
            State::Ended | State::Joined => Err("403 task ended"),
        }
    }

    fn ended(&self, name: &Name) -> Result<Number, Refusal> {
        let place = self.place(name)?;
        match self.task(place).state {
            State::Live => Err("408 not ended"),
            State::Ended => Ok(place),
            State::Joined => Err("409 already joined"),
        }
    }

    fn check_room(&self) -> Result<(), Refusal> {
        if self.rows.len() < self.limits.events { Ok(()) } else { Err("413 events full") }
    }

    fn next_event(&self) -> Number {
        self.rows.len() as Number + 1
    }

    fn known(&self, event: Number) -> &Tree {
        if event == 0 { &ZERO } else { &self.rows[event as usize - 1].tree }
    }

    fn add_id(&mut self, id: Id) -> Number {
        self.ids.push(id);
        self.ids.len() as Number - 1
    }

    /// A point that an event raised, where these are the trees before and after it.
    fn raised_point(before: &Tree, after: &Tree) -> Option<Point> {
        let halves = before.raised_place(after)?.point()?;
        Some(Point { halves, value: after.value_at(halves) })
    }

    /// Adds an event of the task of this place, which takes in what this other event knew, if it is not 0.
    fn add(&mut self, kind: Kind, place: Number, named: Number, taken_in: Number) -> Number {
        let Task { last, id, .. } = *self.task(place);
        let joined;
        let (before, preds) = if taken_in == 0 {
            (self.known(last), [last, 0])
        } else {
            joined = self.known(last).join(self.known(taken_in));
            (&joined, preds(last, taken_in))
        };
        let tree = before.event(&self.ids[id as usize]);
        if self.limits.keeps_points {
            let point = Tenant::raised_point(before, &tree);
            self.points.push(point);
        }
        self.rows.push(Row { tree, place, id, preds, named, kind });
        let event = self.rows.len() as Number;
        self.tasks[place as usize].last = event;
        event
    }

    fn local(&mut self, name: Name) -> Result<Number, Refusal> {
        let place = self.live(&name)?;
        self.check_room()?;
        Ok(self.add(Kind::Local, place, 0, 0))
    }

    fn end(&mut self, name: Name) -> Result<Number, Refusal> {
        let place = self.live(&name)?;
        self.check_room()?;
        self.tasks[place as usize].state = State::Ended;
        Ok(self.add(Kind::End, place, 0, 0))
    }

    fn send(&mut self, name: Name, message: Name) -> Result<Number, Refusal> {
        let place = self.live(&name)?;
        let are_full = self.messages.len() >= self.limits.messages;
        let is_full = self.rows.len() >= self.limits.events;
        let sent = self.messages.len() as Number;
        match self.message_places.entry(message) {
            Entry::Occupied(_) => return Err("406 message exists"),
            Entry::Vacant(_) if are_full => return Err("415 messages full"),
            Entry::Vacant(_) if is_full => return Err("413 events full"),
            Entry::Vacant(entry) => entry.insert(sent),
        };
        let event = self.add(Kind::Send, place, sent, 0);
        self.messages.push(Message { name: message, sent: event, receipts: Receipts::None });
        Ok(event)
    }

    fn receive(&mut self, name: Name, message: Name) -> Result<Number, Refusal> {
        let place = self.live(&name)?;
        let received = self.message_place(&message)?;
        let Message { sent, receipts, .. } = &self.messages[received as usize];
        if receipts.has(place) {
            return Err("407 already received");
        }
        self.check_room()?;
        let event = self.add(Kind::Recv, place, received, *sent);
        self.messages[received as usize].receipts.add(event, place);
        Ok(event)
    }

    fn spawn(&mut self, name: Name, child: Name) -> Result<Number, Refusal> {
        let place = self.live(&name)?;
        let are_full = self.tasks.len() >= self.limits.tasks;
        let is_full = self.rows.len() >= self.limits.events;
        let started = self.tasks.len() as Number;
        match self.places.entry(child) {
            Entry::Occupied(_) => return Err("402 task exists"),
            Entry::Vacant(_) if are_full => return Err("414 tasks full"),
            Entry::Vacant(_) if is_full => return Err("413 events full"),
            Entry::Vacant(entry) => entry.insert(started),
        };
        let event = self.add(Kind::Spawn, place, started, 0);
        let (kept, given) = self.ids[self.task(place).id as usize].split();
        let (kept, given) = (self.add_id(kept), self.add_id(given));
        self.rows[event as usize - 1].id = kept;
        self.tasks[place as usize].id = kept;
        self.tasks.push(Task { name: child, state: State::Live, last: event, id: given });
        Ok(event)
    }

    fn join(&mut self, name: Name, child: Name) -> Result<Number, Refusal> {
        let place = self.live(&name)?;
        let other = self.ended(&child)?;
        self.check_room()?;
        let Task { last, id, .. } = *self.task(other);
        let id = self.ids[self.task(place).id as usize].sum(&self.ids[id as usize]);
        self.tasks[place as usize].id = self.add_id(id);
        self.tasks[other as usize].state = State::Joined;
        Ok(self.add(Kind::Join, place, other, last))
    }

    fn row(&self, event: Number) -> Result<&Row, Refusal> {
        (event as usize).checked_sub(1).and_then(|place| self.rows.get(place)).ok_or("404 no event")
    }

    fn message_place(&self, name: &Name) -> Result<Number, Refusal> {
        self.message_places.get(name).copied().ok_or("405 no message")
    }

    /// Whether an event is known to a later one with this tree.
    fn is_known(&self, event: Number, tree: &Tree) -> bool {
        match self.points.get(event as usize - 1) {
            Some(Some(point)) => point.value <= tree.value_at(point.halves),
            Some(None) | None => self.known(event).leq(tree),
        }
    }

    /// Does the request, and writes the reply where it is accepted.
    fn answer(&mut self, request: Request, out: &mut Vec<u8>) -> Result<(), Refusal> {
        let event = match request {
            Request::Local(task) => self.local(task)?,
            Request::Spawn(task, child) => self.spawn(task, child)?,
            Request::Send(task, message) => self.send(task, message)?,
            Request::Recv(task, message) => self.receive(task, message)?,
            Request::End(task) => self.end(task)?,
            Request::Join(task, child) => self.join(task, child)?,
            Request::Order(first, second) => return self.tell_order(first, second, out),
            Request::Past(event) => return self.tell_past(event, out),
            Request::Concurrent(event) => return self.tell_concurrent(event, out),
            Request::Cut(event) => return self.tell_cut(event, out),
            Request::Event(event) => return self.tell_event(event, out),
            Request::Stamp(event) => return self.tell_stamp(event, out),
            Request::Task(task) => return self.tell_task(task, out),
            Request::Message(message) => return self.tell_message(message, out),
            Request::Count => return self.tell_count(out),
        };
        out.extend_from_slice(b"201 ");
        write_number(out, event);
        Ok(())
    }

    /// No later event happened before an earlier one, so they are compared one way.
    fn tell_order(&self, first: Number, second: Number, out: &mut Vec<u8>) -> Result<(), Refusal> {
        let (tree, other) = (&self.row(first)?.tree, &self.row(second)?.tree);
        let order = match first.cmp(&second) {
            Ordering::Equal => "200 same",
            Ordering::Less if self.is_known(first, other) => "200 before",
            Ordering::Greater if self.is_known(second, tree) => "200 after",
            Ordering::Less | Ordering::Greater => "200 concurrent",
        };
        out.extend_from_slice(order.as_bytes());
        Ok(())
    }

    /// No later event happened before this one, so only the earlier ones are compared, and one way.
    fn tell_past(&self, event: Number, out: &mut Vec<u8>) -> Result<(), Refusal> {
        let tree = &self.row(event)?.tree;
        tell_list((1..event).filter(|earlier| self.is_known(*earlier, tree)), out);
        Ok(())
    }

    /// No earlier event happened after this one, and no later one before it, so each is compared one way.
    fn tell_concurrent(&self, event: Number, out: &mut Vec<u8>) -> Result<(), Refusal> {
        let tree = &self.row(event)?.tree;
        let earlier = (1..event).filter(|earlier| !self.is_known(*earlier, tree));
        let later = (event + 1..self.next_event()).filter(|later| !self.is_known(event, self.known(*later)));
        tell_list(earlier.chain(later), out);
        Ok(())
    }

    /// What a task did before an event that reaches this one reaches it, too, so the first one back is its last.
    fn tell_cut(&self, event: Number, out: &mut Vec<u8>) -> Result<(), Refusal> {
        let Row { tree, place, .. } = self.row(event)?;
        let mut cut = vec![event];
        let mut has_one = vec![false; self.tasks.len()];
        has_one[*place as usize] = true;
        for (earlier, row) in (1..event).zip(&self.rows).rev() {
            if !has_one[row.place as usize] && self.is_known(earlier, tree) {
                has_one[row.place as usize] = true;
                cut.push(earlier);
            }
        }
        tell_list(cut.into_iter().rev(), out);
        Ok(())
    }

    fn tell_event(&self, event: Number, out: &mut Vec<u8>) -> Result<(), Refusal> {
        let Row { place, preds, named, kind, .. } = self.row(event)?;
        out.extend_from_slice(b"200 ");
        out.extend_from_slice(kind.text());
        self.task(*place).name.write(out);
        out.push(b' ');
        match kind {
            Kind::Local | Kind::End => out.push(b'-'),
            Kind::Spawn | Kind::Join => self.task(*named).name.write(out),
            Kind::Send | Kind::Recv => self.messages[*named as usize].name.write(out),
        }
        out.push(b' ');
        write_list(out, preds);
        Ok(())
    }

    fn tell_stamp(&self, event: Number, out: &mut Vec<u8>) -> Result<(), Refusal> {
        let row = self.row(event)?;
        out.extend_from_slice(b"200 ");
        write_stamp(&self.ids[row.id as usize], &row.tree, out);
        Ok(())
    }

    fn tell_task(&self, name: Name, out: &mut Vec<u8>) -> Result<(), Refusal> {
        let task = self.task(self.place(&name)?);
        let state = match task.state {
            State::Live => "200 live ",
            State::Ended => "200 ended ",
            State::Joined => "200 joined ",
        };
        out.extend_from_slice(state.as_bytes());
        write_number(out, task.last);
        Ok(())
    }

    fn tell_message(&self, name: Name, out: &mut Vec<u8>) -> Result<(), Refusal> {
        let message = &self.messages[self.message_place(&name)? as usize];
        out.extend_from_slice(b"200 ");
        write_number(out, message.sent);
        out.push(b' ');
        write_list(out, message.receipts.events());
        Ok(())
    }

    fn tell_count(&self, out: &mut Vec<u8>) -> Result<(), Refusal> {
        out.extend_from_slice(b"200 ");
        write_number(out, self.rows.len() as Number);
        out.push(b' ');
        write_number(out, self.tasks.len() as Number);
        out.push(b' ');
        write_number(out, self.messages.len() as Number);
        Ok(())
    }
}

struct Addressee {
    name: Name,
    /// The name and a blank.
    start: Vec<u8>,
    tenant: Tenant,
}

impl Addressee {
    fn reply(&mut self, request: Option<&[u8]>, out: &mut Vec<u8>) {
        out.extend_from_slice(&self.start);
        let outcome = match request.and_then(Request::read) {
            Some(request) => self.tenant.answer(request, out),
            None => Err("400 line"),
        };
        if let Err(refusal) = outcome {
            out.extend_from_slice(refusal.as_bytes());
        }
        out.push(b'\n');
    }
}

struct Addressees {
    all: Vec<Addressee>,
    /// The place of the one whose line was last.
    last: usize,
}

impl Addressees {
    fn of_words() -> Addressees {
        let mut limits = Limits { events: 4096, tasks: 512, messages: 2048, keeps_points: false };
        let mut names = Vec::new();
        let mut words = std::env::args().skip(1);
        while let Some(word) = words.next() {
            let mut limit = || words.next().and_then(|number| number.parse().ok()).expect("a number");
            match word.as_str() {
                "--points" => limits.keeps_points = true,
                "--events" => limits.events = limit(),
                "--tasks" => limits.tasks = limit(),
                "--messages" => limits.messages = limit(),
                _ => names.push(word),
            }
        }
        let of_name = |word: String| Addressee {
            name: Name::read(word.as_bytes()).expect("a name"),
            start: format!("{word} ").into_bytes(),
            tenant: Tenant::new(limits),
        };
        Addressees { all: names.into_iter().map(of_name).collect(), last: 0 }
    }

    /// Most lines are of the tenant of the line before.
    fn reply(&mut self, line: &[u8], out: &mut Vec<u8>) {
        let last = &mut self.all[self.last];
        match line.strip_prefix(last.start.as_slice()) {
            Some(request) if line.len() <= MOST_BYTES => last.reply(Some(request), out),
            _ => self.find_and_reply(line, out),
        }
    }

    fn find_and_reply(&mut self, line: &[u8], out: &mut Vec<u8>) {
        let (word, request) = split_first(line);
        let Some(name) = Name::read(word).filter(|_| line.len() <= MOST_BYTES) else {
            return out.extend_from_slice(b"? 400 line\n");
        };
        let Some(place) = self.all.iter().position(|other| other.name == name) else {
            return out.extend_from_slice(b"? 420 no tenant\n");
        };
        self.last = place;
        self.all[place].reply(request, out);
    }
}

unsafe extern "C" {
    fn memchr(bytes: *const c_void, byte: c_int, length: usize) -> *const c_void;
}

fn line_end(bytes: &[u8]) -> Option<usize> {
    // SAFETY: it reads these bytes alone, and gives the place of one of them, or null.
    let found = unsafe { memchr(bytes.as_ptr().cast(), c_int::from(b'\n'), bytes.len()) };
    (!found.is_null()).then(|| found.addr() - bytes.as_ptr().addr())
}

/// The lines of what is read. The buffer grows only for a line that is longer.
struct Lines<R> {
    input: R,
    buffer: Vec<u8>,
    /// The bytes that are read, and not yet handed out.
    unread: std::ops::Range<usize>,
}

impl<R: Read> Lines<R> {
    fn new(input: R) -> Lines<R> {
        Lines { input, buffer: vec![0; ROOM], unread: 0..0 }
    }

    /// The next line without its end, unless there is none.
    fn next(&mut self) -> IoResult<Option<&[u8]>> {
        let mut searched = 0;
        loop {
            let start = self.unread.start;
            if let Some(at) = line_end(&self.buffer[start + searched..self.unread.end]) {
                let line = &self.buffer[start..start + searched + at];
                self.unread.start = start + searched + at + 1;
                return Ok(Some(line.strip_suffix(b"\r").unwrap_or(line)));
            }
            searched = self.unread.len();
            if self.read_more()? == 0 {
                let line = std::mem::take(&mut self.unread);
                return Ok((searched > 0).then(|| &self.buffer[line]));
            }
        }
    }

    fn read_more(&mut self) -> IoResult<usize> {
        self.buffer.copy_within(self.unread.clone(), 0);
        self.unread = 0..self.unread.len();
        if self.unread.end == self.buffer.len() {
            self.buffer.resize(2 * self.buffer.len(), 0);
        }
        let count = self.input.read(&mut self.buffer[self.unread.end..])?;
        self.unread.end += count;
        Ok(count)
    }
}

fn main() -> IoResult<()> {
    let mut addressees = Addressees::of_words();
    let mut lines = Lines::new(stdin().lock());
    let mut output = stdout().lock();
    // Replies are gathered here. It grows only where a stamp or a list is longer than what is free of it.
    let mut out = Vec::with_capacity(2 * ROOM);
    while let Some(line) = lines.next()? {
        addressees.reply(line, &mut out);
        if out.len() >= ROOM {
            output.write_all(&out)?;
            out.clear();
        }
    }
    output.write_all(&out)?;
    output.flush()?;
    // The memory is left to the end of the process.
    std::mem::forget(addressees);
    Ok(())
}
