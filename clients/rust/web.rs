//! Requests and responses of HTTP as messages, by the header [`HEADER`].
//!
//! With a client of any crate, send the header with what [`outgoing`] gives, and hand what it has in the response to [`incoming`](crate::incoming). With a
//! server of any crate, answer each request by [`answer`], and send the header with the response. Over a stream of one's own,
//! [`write_head`], [`read_head`] and [`message_in`] do the rest:
//!
//! ```no_run
//! # use itc_trace::{incoming, web};
//! # let mut stream = std::net::TcpStream::connect("127.0.0.1:80")?;
//! web::write_head(&mut stream, "GET / HTTP/1.1\r\nHost: shop\r\nConnection: close\r\n")?;
//! let head = web::read_head(&mut std::io::BufReader::new(&stream))?;
//! incoming(web::message_in(&head).unwrap_or_default());
//! # Ok::<(), std::io::Error>(())
//! ```

use crate::traced::{self, outgoing, receive, Done, HEADER};
use std::io::{self, BufRead, Read, Write};
use std::panic::Location;

/// How many bytes a head may have, as it comes from anybody.
const MOST_HEAD: u64 = 65536;

/// Answers a request as a task of its own. It comes after what this thread did before as itself, and not after its other requests. If the
/// request brings a message, it comes after the place where that was sent.
#[track_caller]
pub fn answer<T>(message: Option<&str>, body: impl FnOnce() -> T) -> T {
    let site = Some(Location::caller());
    traced::run(traced::spawn("request", site), &Done::default(), || {
        receive(message.unwrap_or_default(), site);
        body()
    })
}

/// Writes the head of a request or a response with a new message, if there is a trace. Each of the lines has its end.
#[track_caller]
pub fn write_head(stream: &mut impl Write, lines: &str) -> io::Result<()> {
    let message = outgoing().map_or(String::new(), |message| format!("{HEADER}: {message}\r\n"));
    stream.write_all(format!("{lines}{message}\r\n").as_bytes())
}

/// Reads the head of a request or a response, up to its empty line.
pub fn read_head(stream: &mut impl BufRead) -> io::Result<String> {
    let (mut head, mut stream) = (Vec::new(), stream.take(MOST_HEAD));
    loop {
        let begun = head.len();
        stream.read_until(b'\n', &mut head)?;
        match &head[begun..] {
            b"\r\n" | b"\n" => return Ok(String::from_utf8_lossy(&head).into_owned()),
            [.., b'\n'] => {}
            _ => return Err(io::Error::new(io::ErrorKind::UnexpectedEof, "the head has no end")),
        }
    }
}

/// The message that a head brings.
pub fn message_in(head: &str) -> Option<&str> {
    let lines = head.lines().skip(1).take_while(|line| !line.is_empty());
    lines.filter_map(|line| line.split_once(':')).find(|(name, _)| name.eq_ignore_ascii_case(HEADER)).map(|(_, message)| message.trim())
}
