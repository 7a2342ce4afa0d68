//! Makes every call of the client: see clients/test.
//!
//! Usage: cargo run --example check PORT TENANT PORT_OF_CUT_REPLIES

use itc_trace::{Error, Event, Kind, Session};
use std::thread;

const TASKS: usize = 4;
const EVENTS: usize = 25;

/// The code with which the call is refused, or "closed" where there is no whole reply.
fn code<T>(answer: Result<T, Error>) -> String {
    match answer {
        Ok(_) => "answered".into(),
        Err(Error::Refused { code, .. }) => code.to_string(),
        Err(Error::Io(_)) => "closed".into(),
    }
}

/// Reports for one task, beside others; tells whether each reply was to its own request, and came in order.
fn work(session: &Session, task: &str) -> Result<bool, Error> {
    let events = (0..EVENTS).map(|_| session.local(task)).collect::<Result<Vec<u64>, Error>>()?;
    let mut is_right = events.windows(2).all(|pair| pair[0] < pair[1]);
    for event in events {
        is_right &= session.event(event)?.task == task;
    }
    Ok(is_right)
}

fn main() -> Result<(), Box<dyn std::error::Error>> {
    let words: Vec<String> = std::env::args().collect();
    let (port, tenant, cut): (u16, &str, u16) = (words[1].parse()?, &words[2], words[3].parse()?);
    let session = Session::new(Kind::Report, tenant, port)?;
    let asking = Session::new(Kind::View, tenant, port)?;
    print!("{} {} {} ", session.local("root")?, session.spawn("root", "a")?, session.local("a")?);
    print!("{} {} {} ", session.local("root")?, session.send("a", "m")?, session.recv("root", "m")?);
    println!("{} {}", session.end("a")?, session.join("root", "a")?);
    let (past, concurrent) = (asking.past(5)?, asking.concurrent(5)?);
    let known = asking.cut(6)?;
    println!("{} {} {past:?} {concurrent:?} {:?} {known:?}", asking.order(4, 5)?, asking.order(6, 5)?, asking.past(1)?);
    let Event { kind, task, name, follows } = asking.event(6)?;
    let ((state, last), (sent, received)) = (asking.task("a")?, asking.message("m")?);
    let (events, tasks, messages) = asking.count()?;
    print!("{kind} {task} {name} {follows:?} {} {state} {last} ", asking.stamp(6)?);
    println!("{sent} {received:?} {events} {tasks} {messages}");
    print!("{} {} ", code(session.local("nobody")), code(session.local("a")));
    print!("{} {} {} ", code(session.send("root", "m")), code(asking.local("root")), code(session.past(9)));
    print!("{} {} ", code(session.local("\u{e4}")), code(session.local("root\nlocal root")));
    println!("{} {}", code(Session::new(Kind::Report, tenant, port)), code(Session::new(Kind::Report, "nobody", port)));
    let names: Vec<String> = (0..TASKS).map(|number| format!("t{number}")).collect();
    for name in &names {
        session.spawn("root", name)?;
    }
    let right = thread::scope(|scope| {
        let threads: Vec<_> = names.iter().map(|name| scope.spawn(|| work(&session, name))).collect();
        threads.into_iter().filter_map(|thread| thread.join().ok()?.ok()).filter(|is_right| *is_right).count()
    });
    println!("{right} {}", asking.count()?.0);
    println!("{} {}", code(session.request("quit")), code(Session::new(Kind::Report, tenant, cut)?.local("root")));
    Ok(())
}
