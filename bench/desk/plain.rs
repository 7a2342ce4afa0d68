
// The same loads over one book of this program behind a `RwLock`: tasks and messages are found by its maps, and an event is
// compared with a later one at its point. The script puts this behind all of replay/plain.rs but its `main`.
use std::sync::atomic::{AtomicBool, Ordering as AtomicOrdering};
use std::sync::RwLock;
use std::time::Instant;

/// Answers a question as a reader does.
fn ask(book: &RwLock<Tenant>, question: &Request, out: &mut Vec<u8>) -> bool {
    let tenant = book.read().expect("a lock");
    out.clear();
    let told = match question {
        Request::Count => tenant.tell_count(out),
        Request::Order(first, second) => tenant.tell_order(*first, *second, out),
        Request::Task(task) => tenant.tell_task(*task, out),
        Request::Message(message) => tenant.tell_message(*message, out),
        _ => Err("no question"),
    };
    told.is_ok()
}

fn by_one(book: &RwLock<Tenant>, questions: &[Request], asks: u64, done: &AtomicBool) -> u64 {
    let (mut answered, mut out) = (0, Vec::with_capacity(256));
    for number in 0..asks {
        if done.load(AtomicOrdering::Relaxed) {
            break;
        }
        answered += ask(book, &questions[number as usize % questions.len()], &mut out) as u64;
    }
    answered
}

fn take(book: &RwLock<Tenant>, reports: u64, done: &AtomicBool) {
    let (root, mut out) = (Name::read(b"root").expect("a name"), Vec::new());
    for _ in 0..reports {
        out.clear();
        let _ = book.write().expect("a lock").answer(Request::Local(root), &mut out);
    }
    if reports > 0 {
        done.store(true, AtomicOrdering::Relaxed);
    }
}

fn opened(reports: &[String]) -> Tenant {
    let mut tenant = Tenant::new(Limits { events: 16384, tasks: 2048, messages: 16384, keeps_points: true });
    let mut out = Vec::new();
    for report in reports {
        out.clear();
        tenant.answer(Request::read(report.as_bytes()).expect("a report"), &mut out).expect("an accepted report");
    }
    tenant
}

fn main() {
    let lines: Vec<String> = stdin().lines().map(|line| line.expect("a line")).collect();
    let mut parts = lines.split(|line| line.is_empty());
    let reports = parts.next().expect("reports");
    let questions: Vec<Request> =
        parts.next().expect("questions").iter().map(|line| Request::read(line.as_bytes()).expect("a question")).collect();
    for load in parts.next().expect("loads") {
        let load: Vec<u64> = load.split(' ').map(|word| word.parse().expect("a number")).collect();
        let (threads, asks, taken) = (load[0], load[1], load[2]);
        let (book, done) = (RwLock::new(opened(reports)), AtomicBool::new(false));
        let start = Instant::now();
        let answered: u64 = std::thread::scope(|scope| {
            let views: Vec<_> = (0..threads).map(|_| scope.spawn(|| by_one(&book, &questions, asks, &done))).collect();
            take(&book, taken, &done);
            views.into_iter().map(|view| view.join().expect("a reader")).sum()
        });
        println!("{} {answered}", start.elapsed().as_nanos());
    }
}
