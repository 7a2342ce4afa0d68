// Runs two programs in turn, several times, and writes for each the least processor time of a run, user and system, in
// seconds, and the greatest peak of memory, in KiB.
//
// `measure TIMES INPUT OUTPUT OTHER_OUTPUT PROGRAM WORDS.. -- OTHER WORDS..` gives the file INPUT to each run and writes
// what the programs give into the two other files. It ends with the first run that fails. It is small itself, since a
// process counts the memory of the one that started it until it runs its own program.
use std::fs::File;
use std::process::{exit, Command};

#[repr(C)]
#[derive(Default)]
struct Usage {
    user: [i64; 2],
    system: [i64; 2],
    most_kibibytes: i64,
    others: [i64; 13],
}

extern "C" {
    fn wait4(child: i32, status: *mut i32, options: i32, usage: *mut Usage) -> i32;
}

impl Usage {
    fn microseconds(&self) -> i64 {
        1_000_000 * (self.user[0] + self.system[0]) + self.user[1] + self.system[1]
    }
}

fn run(words: &[String], input: &str, output: &str) -> Usage {
    let child = Command::new(&words[0])
        .args(&words[1..])
        .stdin(File::open(input).expect("the input"))
        .stdout(File::create(output).expect("the output"))
        .spawn()
        .expect("the program");
    let id = child.id() as i32;
    let (mut status, mut usage) = (0, Usage::default());
    // SAFETY: the child is waited for here alone, and both places are of the sizes that the call fills.
    assert_eq!(unsafe { wait4(id, &mut status, 0, &mut usage) }, id);
    if status != 0 {
        eprintln!("measure: {}: ended with status {status:#x}", words[0]);
        exit(1);
    }
    usage
}

fn main() {
    let words: Vec<String> = std::env::args().skip(1).collect();
    let times = words[0].parse().expect("how often");
    let mut programs = words[4..].split(|word| word == "--");
    let programs = [programs.next().expect("a program"), programs.next().expect("another program")];
    let mut best = [(i64::MAX, 0); 2];
    for _ in 0..times {
        for place in 0..2 {
            let usage = run(programs[place], &words[1], &words[2 + place]);
            let (time, memory) = best[place];
            best[place] = (time.min(usage.microseconds()), memory.max(usage.most_kibibytes));
        }
    }
    let [(time, memory), (other_time, other_memory)] = best;
    println!("{:.3} {memory} {:.3} {other_memory}", time as f64 / 1e6, other_time as f64 / 1e6);
}
