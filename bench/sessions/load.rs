// Loads a server with sessions, and looks at each reply.
//
// `load one|views|tenants BATCH REQUESTS PORT [echo]` has each session make so many requests, each batch of them once the
// one before it is answered, and writes how many requests were made in all and in how many nanoseconds. `one` is a session
// that reports, for eight tenants one after another. `views` is 31 sessions that ask, at most eight of a tenant, beside one
// that reports. `tenants` is 16 tenants with a session each that reports, all at once. Of eight requests of a session that
// reports one is a report, four are `order` and three `count`; of seven of one that asks, four and three. What each is to be
// answered is found beforehand, from clocks that count the events of each task; with `echo` it is the line itself.
//
// `load cut PORT` has 16 tenants report in sessions most of which are cut off, and then asks for each event. It writes how
// many sessions were held, how many of them were cut off, how many reports were answered, and how many events there are.
//
// It ends with status 1 at the first wrong reply.
use std::io::{Read, Write};
use std::net::{Shutdown, TcpStream};
use std::process::exit;
use std::sync::Barrier;
use std::thread;
use std::time::{Duration, Instant};

/// How many tasks a tenant has at most.
const TASKS: usize = 64;

/// How many events a tenant has before views ask.
const EVENTS: usize = 1024;

/// How many sessions of a tenant report one after another in `cut`.
const SESSIONS: usize = 30;

/// The names of tenants.
const TENANTS: [&str; 16] = ["a", "b", "c", "d", "e", "f", "g", "h", "i", "j", "k", "l", "m", "n", "o", "p"];

fn fail(what: &str) -> ! {
    eprintln!("load: {what}");
    exit(1)
}

fn same(found: &[u8], wanted: &[u8]) {
    if found != wanted {
        let (found, wanted) = (String::from_utf8_lossy(found), String::from_utf8_lossy(wanted));
        fail(&format!("{found:?} in place of {wanted:?}"));
    }
}

/// Numbers without a pattern, the same at every run.
struct Dice(u64);

impl Dice {
    fn below(&mut self, bound: usize) -> usize {
        self.0 ^= self.0 << 13;
        self.0 ^= self.0 >> 7;
        self.0 ^= self.0 << 17;
        (self.0 >> 20) as usize % bound
    }
}

/// What a task did; tasks and messages are numbers.
#[derive(Clone, Copy)]
enum Kind {
    Local,
    Spawn(usize),
    Send(usize),
    Recv(usize),
}

#[derive(Clone, Copy)]
struct Report {
    task: usize,
    kind: Kind,
}

fn task_name(task: usize) -> String {
    if task == 0 { String::from("root") } else { format!("task_{task}") }
}

impl Report {
    /// Its words, and this where it names neither a task nor a message.
    fn words(&self, no_name: &str) -> String {
        let task = task_name(self.task);
        match self.kind {
            Kind::Local => format!("local {task}{no_name}"),
            Kind::Spawn(child) => format!("spawn {task} {}", task_name(child)),
            Kind::Send(message) => format!("send {task} message_{message}"),
            Kind::Recv(message) => format!("recv {task} message_{message}"),
        }
    }
}

struct Row {
    report: Report,
    follows: Vec<usize>,
    /// How many events of each task it knows of, itself among them.
    known: [u16; TASKS],
}

/// What was reported of a tenant. Events and messages are numbered from 1.
struct Book {
    rows: Vec<Row>,
    /// Of each task its last event, else the one that started it, else 0.
    last: Vec<usize>,
    /// Of each message the event that sent it.
    sent: Vec<usize>,
    unread: Vec<usize>,
}

impl Book {
    fn new() -> Book {
        Book { rows: Vec::new(), last: vec![0], sent: Vec::new(), unread: Vec::new() }
    }

    /// A report that would be accepted.
    fn next(&self, dice: &mut Dice) -> Report {
        let task = dice.below(self.last.len());
        let kind = match dice.below(8) {
            0 if self.last.len() < TASKS => Kind::Spawn(self.last.len()),
            1..=3 => Kind::Send(self.sent.len() + 1),
            4..=6 if !self.unread.is_empty() => Kind::Recv(self.unread[dice.below(self.unread.len())]),
            _ => Kind::Local,
        };
        Report { task, kind }
    }

    fn take(&mut self, report: Report) {
        let event = self.rows.len() + 1;
        let mut follows = vec![self.last[report.task]];
        match report.kind {
            Kind::Local => {}
            Kind::Spawn(_) => self.last.push(event),
            Kind::Send(_) => {
                self.sent.push(event);
                self.unread.push(self.sent.len());
            }
            Kind::Recv(message) => {
                follows.push(self.sent[message - 1]);
                self.unread.retain(|other| *other != message);
            }
        }
        self.last[report.task] = event;
        follows.retain(|earlier| *earlier > 0);
        follows.sort();
        follows.dedup();
        let mut known = [0; TASKS];
        for earlier in &follows {
            for (count, other) in known.iter_mut().zip(self.rows[earlier - 1].known) {
                *count = other.max(*count);
            }
        }
        known[report.task] += 1;
        self.rows.push(Row { report, follows, known });
    }

    /// Keeps the first so many events.
    fn keep(&mut self, count: usize) {
        let mut kept = Book::new();
        for row in &self.rows[..count] {
            kept.take(row.report);
        }
        *self = kept;
    }

    fn is_before(&self, first: usize, second: usize) -> bool {
        let (first, second) = (&self.rows[first - 1], &self.rows[second - 1]);
        first.known[first.report.task] <= second.known[first.report.task]
    }

    fn order(&self, first: usize, second: usize) -> &'static str {
        match (self.is_before(first, second), self.is_before(second, first)) {
            (true, true) => "200 same\n",
            (true, false) => "200 before\n",
            (false, true) => "200 after\n",
            (false, false) => "200 concurrent\n",
        }
    }

    fn count(&self) -> String {
        format!("200 {} {} {}\n", self.rows.len(), self.last.len(), self.sent.len())
    }

    fn event(&self, event: usize) -> String {
        let row = &self.rows[event - 1];
        let follows: String = row.follows.iter().map(|earlier| format!(" {earlier}")).collect();
        format!("200 {} {}{follows}\n", row.report.words(" -"), row.follows.len())
    }
}

/// A connection, and what was read of it.
struct Session {
    stream: TcpStream,
    read: Vec<u8>,
}

impl Session {
    /// A session that was opened by this line. It asks at once how much there is, so that a refusal is told.
    fn new(port: u16, opening: &str) -> (Session, String) {
        let stream = TcpStream::connect(("127.0.0.1", port)).unwrap_or_else(|fault| fail(&fault.to_string()));
        stream.set_nodelay(true).expect("no delay");
        stream.set_read_timeout(Some(Duration::from_secs(60))).expect("a limit of time");
        let mut session = Session { stream, read: vec![0; 65536] };
        session.put(format!("{opening}\ncount\n").as_bytes());
        let told = String::from_utf8_lossy(session.replies(1)).into_owned();
        (session, told)
    }

    /// The same, which reports; it waits until the session before it is over. And how many events there are.
    fn reporting(port: u16, tenant: &str) -> (Session, usize) {
        for _ in 0..10_000 {
            let (session, told) = Session::new(port, &format!("report {tenant}"));
            let words: Vec<&str> = told.split_whitespace().collect();
            match words[..] {
                ["200", events, _, _] => return (session, events.parse().expect("a number")),
                ["421", ..] => thread::sleep(Duration::from_millis(1)),
                _ => fail(&told),
            }
        }
        fail("a desk does not come back")
    }

    fn put(&mut self, text: &[u8]) {
        self.stream.write_all(text).unwrap_or_else(|fault| fail(&fault.to_string()));
    }

    /// The next replies, exactly so many. No more are due.
    fn replies(&mut self, mut wanted: usize) -> &[u8] {
        let mut len = 0;
        while wanted > 0 {
            if len == self.read.len() {
                self.read.resize(2 * len, 0);
            }
            let count = self.stream.read(&mut self.read[len..]).unwrap_or_else(|fault| fail(&fault.to_string()));
            let lines = self.read[len..len + count].iter().filter(|byte| **byte == b'\n').count();
            if count == 0 || lines > wanted {
                fail("too few replies or too many");
            }
            len += count;
            wanted -= lines;
        }
        &self.read[..len]
    }

    /// Ends the session, and waits for that.
    fn quit(mut self) {
        self.put(b"quit\n");
        same(&self.read_to_end(), b"");
    }

    fn read_to_end(&mut self) -> Vec<u8> {
        let mut rest = Vec::new();
        self.stream.read_to_end(&mut rest).unwrap_or_else(|fault| fail(&fault.to_string()));
        rest
    }
}

/// Batches of requests that a session makes, and what they are to be answered.
struct Plan {
    opening: String,
    batch: usize,
    requests: Vec<u8>,
    replies: Vec<u8>,
    /// Where each batch ends, in the requests and in the replies.
    ends: Vec<(usize, usize)>,
    /// Whether another session reports, so that a `count` may tell of more.
    grows: bool,
    echoes: bool,
}

impl Plan {
    fn new(opening: String, batch: usize, echoes: bool) -> Plan {
        let (requests, replies, ends) = (Vec::new(), Vec::new(), Vec::new());
        Plan { opening, batch, requests, replies, ends, grows: false, echoes }
    }

    fn add(&mut self, line: &str, reply: &str) {
        let reply = if self.echoes { line } else { reply };
        self.requests.extend_from_slice(line.as_bytes());
        self.replies.extend_from_slice(reply.as_bytes());
    }

    fn add_report(&mut self, book: &mut Book, dice: &mut Dice) {
        let report = book.next(dice);
        book.take(report);
        self.add(&format!("{}\n", report.words("")), &format!("201 {}\n", book.rows.len()));
    }

    /// Adds the question at this place of seven.
    fn add_question(&mut self, place: usize, book: &Book, dice: &mut Dice) {
        if place % 2 == 1 {
            let events = book.rows.len();
            let (first, second) = (dice.below(events) + 1, dice.below(events) + 1);
            self.add(&format!("order {first} {second}\n"), book.order(first, second));
        } else {
            self.add("count\n", &book.count());
        }
    }

    /// Ends a batch.
    fn end(&mut self) {
        self.ends.push((self.requests.len(), self.replies.len()));
    }

    /// Adds so many requests: reports and questions, or questions alone.
    fn add_mix(&mut self, requests: usize, reports: bool, book: &mut Book, dice: &mut Dice) {
        for number in 0..requests {
            match if reports { number % 8 } else { 1 + number % 7 } {
                0 => self.add_report(book, dice),
                place => self.add_question(place, book, dice),
            }
            if (number + 1) % self.batch == 0 {
                self.end();
            }
        }
    }
}

/// Looks at replies of which some may tell of more events than they were to tell of.
fn same_or_more(found: &[u8], wanted: &[u8]) {
    let (found, wanted) = (found.split(|byte| *byte == b'\n'), wanted.split(|byte| *byte == b'\n'));
    for (found, wanted) in found.zip(wanted).filter(|(found, wanted)| found != wanted) {
        let (more, less) = (numbers(found), numbers(wanted));
        if more.len() != 4 || less.len() != 4 || more.iter().zip(&less).any(|(more, less)| more < less) {
            same(found, wanted);
        }
    }
}

/// The numbers of a line, or nothing where a word is none.
fn numbers(line: &[u8]) -> Vec<usize> {
    let words = String::from_utf8_lossy(line);
    words.split(' ').map(str::parse).collect::<Result<_, _>>().unwrap_or_default()
}

/// Makes the requests of the plan.
fn ask_all(session: &mut Session, plan: &Plan) {
    let (mut from, mut replies_from) = (0, 0);
    for (to, replies_to) in &plan.ends {
        let requests = &plan.requests[from..*to];
        session.put(requests);
        let lines = requests.iter().filter(|byte| **byte == b'\n').count();
        let (found, wanted) = (session.replies(lines), &plan.replies[replies_from..*replies_to]);
        match plan.grows {
            true => same_or_more(found, wanted),
            false => same(found, wanted),
        }
        (from, replies_from) = (*to, *replies_to);
    }
}

/// The nanoseconds from the first request to the last reply of all plans, each in a session of its own.
fn time_of_all(plans: &[Plan], port: u16) -> u128 {
    let start = &Barrier::new(plans.len());
    let times: Vec<(Instant, Instant)> = thread::scope(|scope| {
        let sessions: Vec<_> = plans.iter().map(|plan| scope.spawn(move || times_of(plan, port, start))).collect();
        sessions.into_iter().map(|session| session.join().expect("a session")).collect()
    });
    let (begun, ended): (Vec<Instant>, Vec<Instant>) = times.into_iter().unzip();
    (ended.into_iter().max().expect("an end") - begun.into_iter().min().expect("a start")).as_nanos()
}

/// When the requests of the plan began, once all sessions were there, and when they were answered.
fn times_of(plan: &Plan, port: u16, start: &Barrier) -> (Instant, Instant) {
    let (mut session, told) = Session::new(port, &plan.opening);
    if !told.starts_with(if plan.echoes { "count" } else { "200 " }) {
        fail(&told);
    }
    start.wait();
    let begun = Instant::now();
    ask_all(&mut session, plan);
    let ended = Instant::now();
    session.quit();
    (begun, ended)
}

/// What the sessions of a load are like.
struct Load {
    batch: usize,
    requests: usize,
    port: u16,
    echoes: bool,
    dice: Dice,
}

impl Load {
    /// A session that reports for this tenant.
    fn report_plan(&mut self, tenant: &str, book: &mut Book) -> Plan {
        let mut plan = Plan::new(format!("report {tenant}"), self.batch, self.echoes);
        plan.add_mix(self.requests, true, book, &mut self.dice);
        plan
    }

    /// A session that asks about this tenant.
    fn view_plan(&mut self, tenant: &str, book: &mut Book, grows: bool) -> Plan {
        let mut plan = Plan::new(format!("view {tenant}"), self.batch, self.echoes);
        plan.grows = grows && !self.echoes;
        plan.add_mix(self.requests, false, book, &mut self.dice);
        plan
    }

    /// A session for each of these tenants that reports from the first event on.
    fn report_plans(&mut self, tenants: &[&str]) -> Vec<Plan> {
        tenants.iter().map(|tenant| self.report_plan(tenant, &mut Book::new())).collect()
    }

    /// Reports the first events of four tenants, and gives the sessions of 31 views and of one that reports.
    fn view_plans(&mut self) -> Vec<Plan> {
        let mut plans = Vec::new();
        for (place, tenant) in TENANTS[..4].iter().enumerate() {
            let mut book = Book::new();
            self.report_first(tenant, &mut book);
            let grows = place == 0;
            for _ in 0..if grows { 7 } else { 8 } {
                plans.push(self.view_plan(tenant, &mut book, grows));
            }
            if grows {
                plans.push(self.report_plan(tenant, &mut book));
            }
        }
        plans
    }

    /// Reports the first events of a tenant.
    fn report_first(&mut self, tenant: &str, book: &mut Book) {
        let mut plan = Plan::new(format!("report {tenant}"), EVENTS, self.echoes);
        for _ in 0..EVENTS {
            plan.add_report(book, &mut self.dice);
        }
        plan.end();
        time_of_all(&[plan], self.port);
    }

    /// The sessions of this kind of load, and whether they are there at once.
    fn plans(&mut self, kind: &str) -> (Vec<Plan>, bool) {
        match kind {
            "one" => (self.report_plans(&TENANTS[..8]), false),
            "views" => (self.view_plans(), true),
            "tenants" => (self.report_plans(&TENANTS), true),
            _ => fail("no such load"),
        }
    }
}

/// How a session ends.
#[derive(Clone, Copy, PartialEq)]
enum Ending {
    Quit,
    /// By the end of the lines.
    End,
    /// In the middle of a line, with some replies left unread.
    InLine,
    /// With no reply read, as soon as the requests are under way.
    Unread,
    /// With some replies read, by closing both ways.
    BothWays,
}

const ENDINGS: [Ending; 5] = [Ending::InLine, Ending::Quit, Ending::Unread, Ending::End, Ending::BothWays];

/// Reports in a session that ends so, and gives how many reports were answered.
fn report_and_end(mut session: Session, ending: Ending, book: &mut Book, dice: &mut Dice) -> usize {
    let before = book.rows.len();
    let reports = 1 + dice.below(100);
    let mut text = String::new();
    for _ in 0..reports {
        let report = book.next(dice);
        text += &format!("{}\n", report.words(""));
        book.take(report);
    }
    if ending == Ending::InLine {
        // Half a report is no request.
        let line = book.next(dice).words("");
        text += &line[..line.len() / 2];
    }
    session.put(text.as_bytes());
    let wanted: Vec<u8> = (before + 1..=before + reports).flat_map(|event| format!("201 {event}\n").into_bytes()).collect();
    match ending {
        Ending::Quit => {
            same(session.replies(reports), &wanted);
            session.quit();
            reports
        }
        Ending::End => {
            session.stream.shutdown(Shutdown::Write).expect("an end");
            same(&session.read_to_end(), &wanted);
            reports
        }
        Ending::Unread => 0,
        Ending::InLine | Ending::BothWays => {
            let mut some = vec![0; 1 + dice.below(wanted.len())];
            session.stream.read_exact(&mut some).unwrap_or_else(|fault| fail(&fault.to_string()));
            same(&some, &wanted[..some.len()]);
            if ending == Ending::BothWays {
                session.stream.shutdown(Shutdown::Both).expect("an end");
            }
            some.iter().filter(|byte| **byte == b'\n').count()
        }
    }
}

/// Asks for each event.
fn ask_events(port: u16, tenant: &str, book: &Book) {
    let (mut session, told) = Session::new(port, &format!("view {tenant}"));
    same(told.as_bytes(), book.count().as_bytes());
    let mut plan = Plan::new(String::new(), 1, false);
    for event in 1..=book.rows.len() {
        plan.add(&format!("event {event}\n"), &book.event(event));
        plan.end();
    }
    ask_all(&mut session, &plan);
    session.quit();
}

/// The session that reports next, with the book kept as far as it was taken: at least as far as it was answered.
fn reopened(port: u16, tenant: &str, answered: usize, book: &mut Book) -> Session {
    let (session, taken) = Session::reporting(port, tenant);
    if taken < answered || taken > book.rows.len() {
        fail(&format!("{answered} events of {tenant} were answered, and {taken} are there"));
    }
    book.keep(taken);
    session
}

/// Has one tenant report in sessions that end in every way. It gives how many sessions there were, how many of them were cut
/// off, how many reports were answered, and how many events there are.
fn cut_tenant(port: u16, tenant: &str, mut dice: Dice) -> [usize; 4] {
    let (mut book, mut answered) = (Book::new(), 0);
    let mut done = [0; 4];
    for ending in ENDINGS.iter().cycle().take(SESSIONS) {
        let session = reopened(port, tenant, answered, &mut book);
        let before = book.rows.len();
        let count = report_and_end(session, *ending, &mut book, &mut dice);
        answered = before + count;
        done[0] += 1;
        done[1] += !matches!(ending, Ending::Quit | Ending::End) as usize;
        done[2] += count;
    }
    reopened(port, tenant, answered, &mut book).quit();
    ask_events(port, tenant, &book);
    done[3] = book.rows.len();
    done
}

/// The same of all tenants at once.
fn cut(port: u16) -> [usize; 4] {
    let mut all = [0; 4];
    thread::scope(|scope| {
        let one = |(seed, tenant)| scope.spawn(move || cut_tenant(port, tenant, Dice(seed)));
        let tenants: Vec<_> = (1..).zip(TENANTS).map(one).collect();
        for tenant in tenants {
            let done = tenant.join().expect("a tenant");
            all.iter_mut().zip(done).for_each(|(all, done)| *all += done);
        }
    });
    all
}

fn main() {
    let words: Vec<String> = std::env::args().skip(1).collect();
    let number = |place: usize| words[place].parse().expect("a number");
    if words[0] == "cut" {
        let [sessions, cut, answered, events] = cut(number(1) as u16);
        println!("{sessions} {cut} {answered} {events}");
        return;
    }
    let echoes = words.get(4).is_some_and(|word| word == "echo");
    let mut load = Load { batch: number(1), requests: number(2), port: number(3) as u16, echoes, dice: Dice(1) };
    let (plans, are_at_once) = load.plans(&words[0]);
    let together = if are_at_once { plans.len() } else { 1 };
    let time: u128 = plans.chunks(together).map(|plans| time_of_all(plans, load.port)).sum();
    println!("{} {time}", plans.len() * load.requests);
}
