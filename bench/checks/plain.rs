// Checks an export as `itc_trace check` does, in plain Rust, for speed alone: no proofs.
//
// It reads an export from standard input, with each line as the program writes it, and passes its header over. It prints `yes N`, or `no LINE 6` for the
// first event whose tree does not compare with the earlier ones as the edges say; and on standard error two processor times
// in seconds: of the check of all events, after they were read, and of all that it did.
//
// What reaches an event is kept as bits. The trees of the events that it follows are compared with its own; what reaches
// those is below them already. Nothing else may be below it: it is enough to ask those of which all predecessors reach it,
// since a predecessor is below what follows it. Nor may it be below any: it is enough to ask those that no event follows.
// Of each event two places are kept: where its tree was above another one last, and where another one was above it last. To
// tell that a tree is not below another these are looked at first.
#[allow(dead_code)]
#[path = "../common/clock.rs"]
mod clock;
#[allow(dead_code)]
#[path = "../common/stamps.rs"]
mod stamps;

use clock::{Path, Tree};
use std::io::{stdin, Read};

/// The values in trees.
type Number = u64;

extern "C" {
    /// The processor time of the process, in millionths of a second.
    fn clock() -> i64;
}

fn processor_time() -> f64 {
    // SAFETY: it takes nothing, and changes nothing that is seen here.
    unsafe { clock() as f64 / 1e6 }
}

struct Event {
    /// At most two, as places from 0.
    preds: Vec<usize>,
    tree: Tree,
}

/// The event of the line, which has this number.
fn read_line(line: &str, number: usize) -> Option<Event> {
    let rest = line.strip_prefix("{\"event\":")?;
    let (event, rest) = rest.split_once(",\"kind\":\"")?;
    let (_kind, rest) = rest.split_once("\",\"name\":\"")?;
    let (_name, rest) = rest.split_once("\",\"preds\":[")?;
    let (preds, rest) = rest.split_once("],\"stamp\":\"")?;
    let (stamp, rest) = rest.split_once("\",\"task\":\"")?;
    rest.strip_suffix("\"}")?;
    let numbers = preds.split(',').filter(|text| !text.is_empty()).map(|text| text.parse().ok());
    let numbers: Vec<usize> = numbers.collect::<Option<_>>()?;
    let is_right = event.parse() == Ok(number)
        && numbers.len() <= 2
        && numbers.iter().all(|pred| 0 < *pred && *pred < number)
        && numbers.is_sorted_by(|one, other| one < other);
    let tree = stamps::read(stamp.as_bytes())?.tree;
    is_right.then(|| Event { preds: numbers.into_iter().map(|pred| pred - 1).collect(), tree })
}

fn read_all() -> Vec<Event> {
    let mut text = String::new();
    stdin().lock().read_to_string(&mut text).expect("an export");
    let lines = text.lines().skip_while(|line| line.starts_with("{\"events\":"));
    let events = lines.enumerate().map(|(place, line)| read_line(line, place + 1));
    events.map(|event| event.expect("a line of an export")).collect()
}

fn has_bit(bits: &[u64], place: usize) -> bool {
    bits.get(place / 64).is_some_and(|word| word >> (place % 64) & 1 == 1)
}

fn add_bit(bits: &mut [u64], place: usize) {
    bits[place / 64] |= 1 << (place % 64);
}

#[derive(Default)]
struct Sides {
    above: Path,
    below: Path,
}

/// Whether the tree of one is below the other's; where it is not, both keep a place that shows it.
fn is_below(one: &Tree, sides: &mut Sides, other: &Tree, other_sides: &mut Sides) -> bool {
    if one.is_above_at(other, &sides.above) || one.is_above_at(other, &other_sides.below) {
        return false;
    }
    let below = one.leq_or_path(other, &mut sides.above);
    if !below {
        other_sides.below.clone_from(&sides.above);
    }
    below
}

struct Graph<'a> {
    events: &'a [Event],
    /// What reaches each event.
    reaching: Vec<Vec<u64>>,
    followed: Vec<u64>,
    sides: Vec<Sides>,
}

impl Graph<'_> {
    fn reaching(&self, event: &Event, place: usize) -> Vec<u64> {
        let mut bits = vec![0; place / 64 + 1];
        for pred in &event.preds {
            for (word, more) in bits.iter_mut().zip(&self.reaching[*pred]) {
                *word |= more;
            }
            add_bit(&mut bits, *pred);
        }
        bits
    }

    fn is_refuted(&mut self, event: &Event, own: &mut Sides, reaching: &[u64], other: usize) -> bool {
        let earlier = &self.events[other];
        let sides = &mut self.sides[other];
        let is_last = !has_bit(&self.followed, other);
        let is_first = !has_bit(reaching, other) && earlier.preds.iter().all(|pred| has_bit(reaching, *pred));
        is_last && is_below(&event.tree, own, &earlier.tree, sides)
            || is_first && is_below(&earlier.tree, sides, &event.tree, own)
    }

    /// Where the tree of the event is above those of all that it follows.
    fn first_sides(&self, event: &Event) -> Sides {
        let mut sides = Sides::default();
        match event.preds[..] {
            [one] => _ = event.tree.leq_or_path(&self.events[one].tree, &mut sides.above),
            [first, second] => {
                let join = self.events[first].tree.join(&self.events[second].tree);
                event.tree.leq_or_path(&join, &mut sides.above);
            }
            _ => {}
        }
        sides
    }

    /// Adds the event of this place, where it compares with the earlier ones as the edges say.
    fn add(&mut self, place: usize) -> bool {
        let event = &self.events[place];
        let reaching = self.reaching(event, place);
        let is_above = event.preds.iter().all(|pred| self.events[*pred].tree.leq(&event.tree));
        let mut own = self.first_sides(event);
        if !is_above || (0..place).any(|other| self.is_refuted(event, &mut own, &reaching, other)) {
            return false;
        }
        for pred in &event.preds {
            add_bit(&mut self.followed, *pred);
        }
        self.reaching.push(reaching);
        self.sides.push(own);
        true
    }
}

fn main() {
    let events = read_all();
    let start = processor_time();
    let followed = vec![0; events.len() / 64 + 1];
    let mut graph = Graph { events: &events, reaching: Vec::new(), followed, sides: Vec::new() };
    match (0..events.len()).find(|place| !graph.add(*place)) {
        Some(place) => println!("no {} 6", place + 1),
        None => println!("yes {}", events.len()),
    }
    eprintln!("{:.3} {:.3}", processor_time() - start, processor_time());
}
