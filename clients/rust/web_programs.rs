//! A server and a client of HTTP, each over streams of its own. clients/web.py runs them beside those of other languages.

use itc_trace::sync::Mutex;
use itc_trace::{incoming, touch, touch_across, web};
use std::fs;
use std::io::{BufReader, Read, Write};
use std::net::{TcpListener, TcpStream};
use std::path::Path;
use std::thread;
use std::time::{Duration, Instant};

const TRACED: &str = "traced";
const RESPONSE: &str = "HTTP/1.1 200 OK\r\nContent-Length: 4\r\nConnection: close\r\n";

const KEPT_RESPONSE: &str = "HTTP/1.1 200 OK\r\nContent-Length: 4\r\n\r\ndone";
const ONE_IN: usize = 1000;
/// So many bytes more than after the first quarter of the requests are kept behind the last one.
const MOST_MORE: usize = 200_000;
const DRAIN_WAIT: Duration = Duration::from_secs(60);

/// Answers so many requests. One in a thousand forgets the lock.
pub fn requests(count: usize) {
    let door = TcpListener::bind("127.0.0.1:0").unwrap();
    let address = door.local_addr().unwrap();
    let asking = thread::spawn(move || ask_again(&TcpStream::connect(address).unwrap(), count));
    let (stream, _) = door.accept().unwrap();
    let (mut reader, mut writer, lock) = (BufReader::new(&stream), &stream, Mutex::new(()));
    let mut kept = usize::MAX;
    for number in 0..count {
        let head = web::read_head(&mut reader).unwrap();
        web::answer(web::message_in(&head), || {
            if number % ONE_IN == 0 {
                touch("total", true); // race: requests
            } else {
                let _held = lock.lock().unwrap();
                touch("stock", true);
            }
        });
        writer.write_all(KEPT_RESPONSE.as_bytes()).unwrap();
        if number == count / 4 {
            kept = allocated::now_least(DRAIN_WAIT / 20);
        }
    }
    asking.join().unwrap();
    let begun = Instant::now();
    while allocated::now() > kept + MOST_MORE {
        assert!(begun.elapsed() < DRAIN_WAIT, "{} bytes are kept, and {kept} before", allocated::now());
        thread::sleep(Duration::from_millis(10));
    }
}

fn ask_again(mut stream: &TcpStream, count: usize) {
    let mut reader = BufReader::new(stream);
    for _ in 0..count {
        stream.write_all(b"GET / HTTP/1.1\r\nHost: here\r\n\r\n").unwrap();
        web::read_head(&mut reader).unwrap();
        reader.read_exact(&mut [0; 4]).unwrap();
    }
}

/// How many bytes the program has.
mod allocated {
    use std::alloc::{GlobalAlloc, Layout, System};
    use std::sync::atomic::{AtomicUsize, Ordering};
    use std::thread::sleep;
    use std::time::{Duration, Instant};

    struct Counting;

    static BYTES: AtomicUsize = AtomicUsize::new(0);

    #[global_allocator]
    static COUNTING: Counting = Counting;

    // SAFETY: all is done by the allocator of the system.
    unsafe impl GlobalAlloc for Counting {
        unsafe fn alloc(&self, layout: Layout) -> *mut u8 {
            BYTES.fetch_add(layout.size(), Ordering::Relaxed);
            System.alloc(layout)
        }

        unsafe fn dealloc(&self, place: *mut u8, layout: Layout) {
            BYTES.fetch_sub(layout.size(), Ordering::Relaxed);
            System.dealloc(place, layout);
        }
    }

    pub fn now() -> usize {
        BYTES.load(Ordering::Relaxed)
    }

    /// The least within this time, in which what is on its way is reported.
    pub fn now_least(time: Duration) -> usize {
        let (begun, mut least) = (Instant::now(), now());
        while begun.elapsed() < time {
            sleep(Duration::from_millis(10));
            least = least.min(now());
        }
        least
    }
}

/// Answers so many requests at a free port, which is told in the file.
pub fn serve(file: &Path, count: usize, how: &str) {
    touch("prices", true);
    let door = TcpListener::bind("127.0.0.1:0").unwrap();
    let written = file.with_extension("new");
    fs::write(&written, door.local_addr().unwrap().port().to_string()).unwrap();
    fs::rename(written, file).unwrap();
    for stream in door.incoming().take(count) {
        respond(stream.unwrap(), how == TRACED);
    }
}

fn respond(mut stream: TcpStream, is_traced: bool) {
    let head = web::read_head(&mut BufReader::new(&stream)).unwrap();
    if is_traced {
        web::answer(web::message_in(&head), || {
            look();
            web::write_head(&mut stream, RESPONSE).unwrap();
        });
    } else {
        look();
        write!(stream, "{RESPONSE}\r\n").unwrap();
    }
    stream.write_all(b"read").unwrap();
}

fn look() {
    touch_across("row", false); // race: web_server odd_heads two_requests
    touch("prices", false);
    touch("log", true); // race: odd_heads two_requests
}

/// Writes before and after a request.
pub fn ask(file: &Path, how: &str) {
    while !file.exists() {
        thread::sleep(Duration::from_millis(10));
    }
    let port = fs::read_to_string(file).unwrap();
    touch_across("row", true); // race: web_client
    println!("{}", get(port.trim(), how == TRACED));
    touch_across("row", true); // race: web_client
}

fn get(port: &str, is_traced: bool) -> String {
    let mut stream = TcpStream::connect(format!("127.0.0.1:{port}")).unwrap();
    let request = format!("GET / HTTP/1.1\r\nHost: 127.0.0.1:{port}\r\nConnection: close\r\n");
    if is_traced {
        web::write_head(&mut stream, &request).unwrap();
    } else {
        write!(stream, "{request}\r\n").unwrap();
    }
    let mut replies = BufReader::new(stream);
    let head = web::read_head(&mut replies).unwrap();
    if is_traced {
        incoming(web::message_in(&head).unwrap_or_default());
    }
    let mut body = [0; 4];
    replies.read_exact(&mut body).unwrap();
    String::from_utf8(body.into()).unwrap()
}
