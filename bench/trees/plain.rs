// Times the same operations in plain Rust.
#[allow(dead_code)]
#[path = "../common/clock.rs"]
mod clock;
#[path = "../common/stamps.rs"]
mod stamps;

use clock::{write_stamp, Id, Tree};
use stamps::{read, Stamp};
use std::hint::black_box;
use std::io::{stdin, BufRead};
use std::time::Instant;

/// The values in trees.
type Number = u64;

impl Stamp {
    fn write(&self) -> Vec<u8> {
        let mut text = Vec::new();
        write_stamp(&self.id, &self.tree, &mut text);
        text
    }
}

fn tell<T>(count: u64, run: impl Fn() -> T, text: impl Fn(T) -> Vec<u8>) {
    let mut best = u128::MAX;
    for _ in 0..7 {
        let start = Instant::now();
        for _ in 0..count {
            black_box(run());
        }
        best = best.min(start.elapsed().as_nanos());
    }
    let text = String::from_utf8(text(run())).expect("text");
    println!("{} {text}", best / u128::from(count));
}

fn text_of_id(id: Id) -> Vec<u8> {
    Stamp { id, tree: Tree::leaf(0) }.write()
}

fn text_of_tree(tree: Tree) -> Vec<u8> {
    Stamp { id: Id::Zero, tree }.write()
}

fn text_of_answer(answer: bool) -> Vec<u8> {
    if answer { b"yes".to_vec() } else { b"no".to_vec() }
}

fn answer(line: &str) {
    let words: Vec<&str> = line.split(' ').collect();
    let count = words[1].parse().expect("a count");
    let text = words[2].as_bytes();
    let one = read(text).expect("a stamp");
    let other = read(words[3].as_bytes()).expect("a stamp");
    match words[0] {
        "share" => tell(
            count,
            || (black_box(&one).id.clone(), one.tree.clone()),
            |(id, tree)| Stamp { id, tree }.write(),
        ),
        "fork" => tell(
            count,
            || Tree::fork(0, black_box(&one).tree.clone(), other.tree.clone()),
            text_of_tree,
        ),
        "split" => tell(
            count,
            || black_box(&one).id.split(),
            |(first, second)| [text_of_id(first), text_of_id(second)].concat(),
        ),
        "sum" => tell(count, || black_box(&one).id.sum(&other.id), text_of_id),
        "disjoint" => tell(count, || black_box(&one).id.disjoint(&other.id), text_of_answer),
        "leq" => tell(count, || black_box(&one).tree.leq(&other.tree), text_of_answer),
        "order" => tell(
            count,
            || black_box(&one).tree.order(&other.tree),
            |word| word.as_bytes().to_vec(),
        ),
        "join" => tell(count, || black_box(&one).tree.join(&other.tree), text_of_tree),
        "event" => tell(count, || black_box(&one).tree.event(&one.id), text_of_tree),
        "write" => tell(count, || black_box(&one).write(), |text| text),
        "read" => tell(count, || read(black_box(text)), |stamp| stamp.expect("a stamp").write()),
        _ => panic!("no such operation"),
    }
}

fn main() {
    for line in stdin().lock().lines() {
        answer(&line.expect("a line"));
    }
}
