//! A session with itc_trace serve: reports what tasks do, and asks how events are ordered. This file may be copied by itself.

use std::fmt::{self, Display};
use std::io::{self, BufRead, BufReader, Write};
use std::net::TcpStream;
use std::sync::Mutex;

/// Why a request has no answer.
#[derive(Debug)]
pub enum Error {
    /// It was refused with this code; the reply is the code and its text, as in `401 no task`.
    Refused {
        code: u16,
        request: String,
        reply: String,
    },
    Io(io::Error),
}

impl Display for Error {
    fn fmt(&self, f: &mut fmt::Formatter<'_>) -> fmt::Result {
        match self {
            Error::Refused { request, reply, .. } => write!(f, "{request}: {reply}"),
            Error::Io(error) => error.fmt(f),
        }
    }
}

impl std::error::Error for Error {}

impl From<io::Error> for Error {
    fn from(error: io::Error) -> Error {
        Error::Io(error)
    }
}

/// How a session is held.
#[derive(Clone, Copy)]
pub enum Kind {
    /// It reports and asks, and is the only one that does.
    Report,
    /// It asks.
    View,
}

/// The report of an event.
#[derive(Debug)]
pub struct Event {
    pub kind: String,
    pub task: String,
    /// The task or message that it names, or `-`.
    pub name: String,
    /// The events that it follows.
    pub follows: Vec<u64>,
}

/// A connection to one tenant. Any thread may use it; a request waits until the one before it is answered.
pub struct Session {
    connection: Mutex<BufReader<TcpStream>>,
}

impl Session {
    pub fn new(kind: Kind, tenant: &str, port: u16) -> Result<Session, Error> {
        let stream = TcpStream::connect(("127.0.0.1", port))?;
        stream.set_nodelay(true)?;
        let kind = match kind {
            Kind::Report => "report",
            Kind::View => "view",
        };
        let session = Session { connection: Mutex::new(BufReader::new(stream)) };
        // A session that is refused is told so in place of the count.
        session.answer(&[&format!("{kind} {tenant}"), "count"])?;
        Ok(session)
    }

    /// The words of the reply to one line, after its code.
    pub fn request(&self, line: &str) -> Result<Vec<String>, Error> {
        self.answer(&[line])
    }

    /// The words of the one reply to these lines.
    fn answer(&self, lines: &[&str]) -> Result<Vec<String>, Error> {
        let refused = |reply: &str| Error::Refused {
            code: reply.get(..3).and_then(|code| code.parse().ok()).unwrap_or(0),
            request: lines[0].into(),
            reply: reply.into(),
        };
        if lines.iter().any(|line| line.contains('\n')) {
            return Err(refused("400 line")); // It would be read as two, and answered twice.
        }
        let mut reply = String::new();
        {
            let mut connection = self.connection.lock().unwrap();
            connection.get_mut().write_all(format!("{}\n", lines.join("\n")).as_bytes())?;
            connection.read_line(&mut reply)?;
        }
        let Some(reply) = reply.strip_suffix('\n') else {
            return Err(io::Error::new(io::ErrorKind::UnexpectedEof, "the collector has ended the session").into());
        };
        match reply.strip_prefix("200 ").or(reply.strip_prefix("201 ")) {
            Some(words) => Ok(words.split(' ').map(String::from).collect()),
            None => Err(refused(reply)),
        }
    }

    fn numbers(&self, line: &str) -> Result<Vec<u64>, Error> {
        numbers(&self.request(line)?)
    }

    fn number(&self, line: &str) -> Result<u64, Error> {
        Ok(self.numbers(line)?[0])
    }

    // Reports: each gives the number of its event.

    pub fn local(&self, task: &str) -> Result<u64, Error> {
        self.number(&format!("local {task}"))
    }

    pub fn spawn(&self, task: &str, child: &str) -> Result<u64, Error> {
        self.number(&format!("spawn {task} {child}"))
    }

    pub fn send(&self, task: &str, message: &str) -> Result<u64, Error> {
        self.number(&format!("send {task} {message}"))
    }

    pub fn recv(&self, task: &str, message: &str) -> Result<u64, Error> {
        self.number(&format!("recv {task} {message}"))
    }

    pub fn end(&self, task: &str) -> Result<u64, Error> {
        self.number(&format!("end {task}"))
    }

    pub fn join(&self, task: &str, child: &str) -> Result<u64, Error> {
        self.number(&format!("join {task} {child}"))
    }

    // Queries.

    /// How event a stands to event b: `same`, `before`, `after` or `concurrent`.
    pub fn order(&self, a: u64, b: u64) -> Result<String, Error> {
        Ok(self.request(&format!("order {a} {b}"))?.remove(0))
    }

    /// The events that happened before this one.
    pub fn past(&self, event: u64) -> Result<Vec<u64>, Error> {
        Ok(self.numbers(&format!("past {event}"))?.split_off(1))
    }

    /// The events that happened neither before this one nor after it.
    pub fn concurrent(&self, event: u64) -> Result<Vec<u64>, Error> {
        Ok(self.numbers(&format!("concurrent {event}"))?.split_off(1))
    }

    /// Of each task the last event that this one knows of, increasing; the event itself is among them.
    pub fn cut(&self, event: u64) -> Result<Vec<u64>, Error> {
        Ok(self.numbers(&format!("cut {event}"))?.split_off(1))
    }

    pub fn event(&self, event: u64) -> Result<Event, Error> {
        let words = self.request(&format!("event {event}"))?;
        Ok(Event { kind: words[0].clone(), task: words[1].clone(), name: words[2].clone(), follows: numbers(&words[4..])? })
    }

    pub fn stamp(&self, event: u64) -> Result<String, Error> {
        Ok(self.request(&format!("stamp {event}"))?.remove(0))
    }

    /// `live`, `ended` or `joined`, and the task's last event.
    pub fn task(&self, task: &str) -> Result<(String, u64), Error> {
        let words = self.request(&format!("task {task}"))?;
        Ok((words[0].clone(), numbers(&words[1..])?[0]))
    }

    /// The event that sent it, and the events that received it.
    pub fn message(&self, message: &str) -> Result<(u64, Vec<u64>), Error> {
        let mut numbers = self.numbers(&format!("message {message}"))?;
        let received = numbers.split_off(2);
        Ok((numbers[0], received))
    }

    /// How many events, tasks and messages there are.
    pub fn count(&self) -> Result<(u64, u64, u64), Error> {
        let numbers = self.numbers("count")?;
        Ok((numbers[0], numbers[1], numbers[2]))
    }
}

fn numbers(words: &[String]) -> Result<Vec<u64>, Error> {
    let read = |word: &String| word.parse().map_err(|_| io::ErrorKind::InvalidData.into());
    words.iter().map(read).collect::<Result<_, io::Error>>().map_err(Error::Io)
}
