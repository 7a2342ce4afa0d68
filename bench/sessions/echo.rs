// Serves sessions in the shape of the program, and answers each line by itself: what a server in plain Rust takes that has
// nothing to do.
//
// `echo serve --port N --workers N --sessions N ..` takes the program's words, and looks at these three. One thread accepts
// and hands each connection by a channel to workers, each of which holds one after another. A connection is read through
// 64 KiB; its first line is not answered, nor is `quit`, which ends it. What was answered is written before a read, which
// may wait, and so lines that came together are answered by one write.
use std::io::{self, BufRead, BufReader, BufWriter, Write};
use std::net::{TcpListener, TcpStream};
use std::process::exit;
use std::sync::atomic::{AtomicU64, Ordering};
use std::sync::mpsc::{channel, Receiver};
use std::sync::Mutex;
use std::thread;

const ROOM: usize = 65536;

/// The number behind this word.
fn number(words: &[String], name: &str) -> usize {
    let place = words.iter().position(|word| word == name).expect(name);
    words[place + 1].parse().expect("a number")
}

/// Reads a line; after the last one, none. What was answered is written first, where no whole line is there.
fn read_line(reader: &mut BufReader<&TcpStream>, writer: &mut impl Write, line: &mut Vec<u8>) -> io::Result<()> {
    line.clear();
    if let Some(at) = reader.buffer().iter().position(|byte| *byte == b'\n') {
        line.extend_from_slice(&reader.buffer()[..=at]);
        reader.consume(at + 1);
        return Ok(());
    }
    writer.flush()?;
    reader.read_until(b'\n', line).map(|_| ())
}

fn hold(stream: &TcpStream) -> io::Result<()> {
    let mut reader = BufReader::with_capacity(ROOM, stream);
    let mut writer = BufWriter::with_capacity(ROOM, stream);
    let mut line = Vec::new();
    read_line(&mut reader, &mut writer, &mut line)?;
    loop {
        read_line(&mut reader, &mut writer, &mut line)?;
        if line.is_empty() || line == b"quit\n" {
            return writer.flush();
        }
        writer.write_all(&line)?;
    }
}

fn hold_all(from: &Mutex<Receiver<TcpStream>>, faults: &AtomicU64) {
    loop {
        let taken = from.lock().expect("a lock").recv();
        let Ok(stream) = taken else {
            return;
        };
        if hold(&stream).is_err() {
            faults.fetch_add(1, Ordering::Relaxed);
        }
    }
}

fn main() {
    let words: Vec<String> = std::env::args().collect();
    let port = number(&words, "--port");
    let Ok(listener) = TcpListener::bind(("127.0.0.1", port as u16)) else {
        eprintln!("echo: port");
        exit(3);
    };
    println!("listening {port}");
    let (to, from) = channel();
    let (from, faults) = (Mutex::new(from), AtomicU64::new(0));
    let sessions = number(&words, "--sessions");
    thread::scope(|scope| {
        for _ in 0..number(&words, "--workers") {
            scope.spawn(|| hold_all(&from, &faults));
        }
        for _ in 0..sessions {
            let (stream, _) = listener.accept().expect("a connection");
            stream.set_nodelay(true).expect("no delay");
            to.send(stream).expect("a worker");
        }
        drop(to);
    });
    println!("served {sessions} faults {}", faults.load(Ordering::Relaxed));
}
