// The operations of ids and event trees in plain Rust, by the published algorithms, for the programs of the other folders:
// no proofs, and a refused request for memory ends the program.
//
// Trees share their parts: both children of a node stand in one block behind one `Arc`, and what an operation leaves as it
// was is kept by a count. To clone an id or a tree takes no memory. Each program says by its `Number` how great values may be.
use crate::Number;
use std::cmp::Ordering;
use std::sync::Arc;

#[derive(Clone)]
pub enum Id {
    Zero,
    One,
    Pair(Arc<Halves>),
}

pub struct Halves {
    left: Id,
    right: Id,
}

impl Id {
    pub fn pair(left: Id, right: Id) -> Id {
        Id::Pair(Arc::new(Halves { left, right }))
    }

    fn norm(left: Id, right: Id) -> Id {
        match (&left, &right) {
            (Id::Zero, Id::Zero) => Id::Zero,
            (Id::One, Id::One) => Id::One,
            _ => Id::pair(left, right),
        }
    }

    pub fn split(&self) -> (Id, Id) {
        let halves = match self {
            Id::Zero => return (Id::Zero, Id::Zero),
            Id::One => return (Id::pair(Id::One, Id::Zero), Id::pair(Id::Zero, Id::One)),
            Id::Pair(halves) => halves,
        };
        match (&halves.left, &halves.right) {
            (Id::Zero, right) => {
                let (first, second) = right.split();
                (Id::pair(Id::Zero, first), Id::pair(Id::Zero, second))
            }
            (left, Id::Zero) => {
                let (first, second) = left.split();
                (Id::pair(first, Id::Zero), Id::pair(second, Id::Zero))
            }
            (left, right) => (Id::pair(left.clone(), Id::Zero), Id::pair(Id::Zero, right.clone())),
        }
    }

    pub fn sum(&self, other: &Id) -> Id {
        match (self, other) {
            (Id::Zero, id) | (id, Id::Zero) => id.clone(),
            (Id::Pair(halves), Id::Pair(others)) => {
                Id::norm(halves.left.sum(&others.left), halves.right.sum(&others.right))
            }
            _ => Id::One,
        }
    }

    /// The least cost of growing a number at a point of it, with the turns as [`Tree::begun`] adds them.
    fn expanded(&self, turns: &mut Vec<bool>) -> Cost {
        let Id::Pair(halves) = self else {
            return 0;
        };
        let cost = match (&halves.left, &halves.right) {
            (Id::One, _) | (_, Id::One) => 0,
            (Id::Zero, id) | (id, Id::Zero) => id.expanded(turns),
            (left, right) => {
                let start = turns.len();
                let left_cost = left.expanded(turns);
                let middle = turns.len();
                let right_cost = right.expanded(turns);
                cheaper((left_cost, right_cost), start, middle, turns)
            }
        };
        cost + EXPANSION + STEP
    }

    pub fn disjoint(&self, other: &Id) -> bool {
        match (self, other) {
            (Id::Zero, _) | (_, Id::Zero) => true,
            (Id::Pair(halves), Id::Pair(others)) => {
                halves.left.disjoint(&others.left) && halves.right.disjoint(&others.right)
            }
            _ => false,
        }
    }

    pub fn write(&self, text: &mut Vec<u8>) {
        match self {
            Id::Zero => text.push(b'0'),
            Id::One => text.push(b'1'),
            Id::Pair(halves) => {
                text.push(b'(');
                halves.left.write(text);
                text.push(b',');
                halves.right.write(text);
                text.push(b')');
            }
        }
    }
}

/// The value of each point: `base` is the least, and `spread` is how far the greatest lies above it. A tree without children
/// has one value.
#[derive(Clone)]
pub struct Tree {
    base: Number,
    spread: Number,
    children: Option<Arc<Children>>,
}

/// The least of the two has the least value 0.
pub struct Children {
    left: Tree,
    right: Tree,
}

/// A place as deep as there is need: whether it lies to the right, at each level from the lowest one up.
#[derive(Clone, Default)]
pub struct Path(Vec<bool>);

pub static ZERO: Tree = Tree::leaf(0);

/// A part of a tree: the halves in which it lies, from the root down, 0 for left and 1 for right, the uppermost the lowest
/// bit; and how many they are. Below the 128th level it keeps none.
pub struct Place {
    halves: u128,
    levels: u32,
}

impl Place {
    const WHOLE: Place = Place { halves: 0, levels: 0 };

    fn in_half(self, half: u128) -> Place {
        Place { halves: self.halves << 1 | half, levels: self.levels + 1 }
    }

    /// The halves of a point in it, unless it lies too deep: below the place it goes on to the left.
    pub fn point(&self) -> Option<u128> {
        (self.levels <= u128::BITS).then_some(self.halves)
    }
}

/// What growing costs: steps down, and expansions, each of which outweighs all steps.
type Cost = u64;

const STEP: Cost = 1;

/// To make a number a node over 0 and 0.
const EXPANSION: Cost = 1 << 32;

/// What an event does first: it fills the tree, or else finds out what growing costs.
enum Begun {
    Filled(Tree),
    Unfilled(Cost),
}

impl Begun {
    fn new(filled: Option<Tree>, cost: Cost) -> Begun {
        filled.map_or(Begun::Unfilled(cost), Begun::Filled)
    }

    fn filled(self) -> Option<Tree> {
        match self {
            Begun::Filled(tree) => Some(tree),
            Begun::Unfilled(_) => None,
        }
    }
}

/// Which tree a join is: one of the two, where both are the same either, or a new one.
enum Joined {
    One,
    Other,
    Either,
    New(Tree),
}

impl Joined {
    fn tree(self, one: &Tree, lift: Number, other: &Tree, other_lift: Number) -> Tree {
        match self {
            Joined::One | Joined::Either => one.lifted(lift),
            Joined::Other => other.lifted(other_lift),
            Joined::New(tree) => tree,
        }
    }
}

impl Tree {
    pub const fn leaf(n: Number) -> Tree {
        Tree { base: n, spread: 0, children: None }
    }

    pub fn is_leaf(&self) -> bool {
        self.children.is_none()
    }

    pub fn min(&self) -> Number {
        self.base
    }

    pub fn max(&self) -> Number {
        self.base + self.spread
    }

    fn lifted(&self, by: Number) -> Tree {
        Tree { base: self.base + by, spread: self.spread, children: self.children.clone() }
    }

    pub fn fork(n: Number, mut left: Tree, mut right: Tree) -> Tree {
        if left.is_leaf() && right.is_leaf() && left.base == right.base {
            return Tree::leaf(n + left.base);
        }
        let common = left.base.min(right.base);
        left.base -= common;
        right.base -= common;
        let spread = left.max().max(right.max());
        Tree { base: n + common, spread, children: Some(Arc::new(Children { left, right })) }
    }

    /// The children: a number counts as a node over 0 and 0.
    fn halves(&self) -> (&Tree, &Tree) {
        match &self.children {
            None => (&ZERO, &ZERO),
            Some(children) => (&children.left, &children.right),
        }
    }

    fn shares_children(&self, other: &Tree) -> bool {
        match (&self.children, &other.children) {
            (Some(children), Some(others)) => Arc::ptr_eq(children, others),
            _ => false,
        }
    }

    pub fn join(&self, other: &Tree) -> Tree {
        self.joined(0, other, 0).tree(self, 0, other, 0)
    }

    #[inline]
    fn joined(&self, lift: Number, other: &Tree, other_lift: Number) -> Joined {
        let (low, other_low) = (lift + self.base, other_lift + other.base);
        let is_below = low + self.spread <= other_low;
        let is_above = other_low + other.spread <= low;
        match (is_above, is_below) {
            (true, true) => Joined::Either,
            (true, false) => Joined::One,
            (false, true) => Joined::Other,
            (false, false) => self.joined_inside(low, other, other_low),
        }
    }

    fn joined_inside(&self, low: Number, other: &Tree, other_low: Number) -> Joined {
        if self.shares_children(other) {
            return match low.cmp(&other_low) {
                Ordering::Less => Joined::Other,
                Ordering::Equal => Joined::Either,
                Ordering::Greater => Joined::One,
            };
        }
        let base = low.min(other_low);
        let (lift, other_lift) = (low - base, other_low - base);
        let ((one_left, one_right), (other_left, other_right)) = (self.halves(), other.halves());
        let left = one_left.joined(lift, other_left, other_lift);
        let right = one_right.joined(lift, other_right, other_lift);
        match (left, right) {
            (Joined::Either, Joined::Either) => Joined::Either,
            (Joined::One | Joined::Either, Joined::One | Joined::Either) => Joined::One,
            (Joined::Other | Joined::Either, Joined::Other | Joined::Either) => Joined::Other,
            (left, right) => Joined::New(Tree::fork(
                base,
                left.tree(one_left, lift, other_left, other_lift),
                right.tree(one_right, lift, other_right, other_lift),
            )),
        }
    }

    /// Whether no value is above that of the other at the same point.
    pub fn leq(&self, other: &Tree) -> bool {
        self.is_below(0, other, 0)
    }

    #[inline]
    fn is_below(&self, lift: Number, other: &Tree, other_lift: Number) -> bool {
        let (low, other_low) = (lift + self.base, other_lift + other.base);
        let (high, other_high) = (low + self.spread, other_low + other.spread);
        high <= other_low || low <= other_low && high <= other_high && self.is_below_inside(low, other, other_low)
    }

    fn is_below_inside(&self, low: Number, other: &Tree, other_low: Number) -> bool {
        let (Some(children), Some(others)) = (&self.children, &other.children) else {
            unreachable!("one value stands to a range somehow")
        };
        Arc::ptr_eq(children, others)
            || children.left.is_below(low, &others.left, other_low)
                && children.right.is_below(low, &others.right, other_low)
    }

    /// The same; where it is not below the other, the path is then to a place that refutes it.
    pub fn leq_or_path(&self, other: &Tree, path: &mut Path) -> bool {
        path.0.clear();
        self.is_below_or_path(0, other, 0, path)
    }

    fn is_below_or_path(&self, lift: Number, other: &Tree, other_lift: Number, path: &mut Path) -> bool {
        let (low, other_low) = (lift + self.base, other_lift + other.base);
        let (high, other_high) = (low + self.spread, other_low + other.spread);
        if high <= other_low {
            return true;
        }
        if low > other_low {
            other.lead(path, |left, right| right.base < left.base);
            return false;
        }
        if high > other_high {
            self.lead(path, |left, right| right.max() > left.max());
            return false;
        }
        let (Some(children), Some(others)) = (&self.children, &other.children) else {
            unreachable!("one value stands to a range somehow")
        };
        for (right, part, other_part) in [(false, &children.left, &others.left), (true, &children.right, &others.right)] {
            if !part.is_below_or_path(low, other_part, other_low, path) {
                path.0.push(right);
                return false;
            }
        }
        true
    }

    /// Leads the path down, to the right where this says so of both children.
    fn lead(&self, path: &mut Path, goes_right: fn(&Tree, &Tree) -> bool) {
        if let Some(children) = &self.children {
            let right = goes_right(&children.left, &children.right);
            let part = if right { &children.right } else { &children.left };
            part.lead(path, goes_right);
            path.0.push(right);
        }
    }

    /// Whether its value at the path is above that of the other.
    pub fn is_above_at(&self, other: &Tree, path: &Path) -> bool {
        let (mut one, mut lift, mut two, mut other_lift) = (self, 0, other, 0);
        let mut rights = path.0.iter().rev();
        loop {
            if other_lift + two.max() < lift + one.base {
                return true;
            }
            if lift + one.max() <= other_lift + two.base {
                return false;
            }
            let right = *rights.next().unwrap_or(&false);
            (one, lift) = one.part(lift, right);
            (two, other_lift) = two.part(other_lift, right);
        }
    }

    fn part(&self, lift: Number, right: bool) -> (&Tree, Number) {
        match &self.children {
            None => (self, lift),
            Some(children) if right => (&children.right, lift + self.base),
            Some(children) => (&children.left, lift + self.base),
        }
    }

    /// Whether it is below the other, and whether it is above: both ways at once, until one is refuted.
    fn stands(&self, lift: Number, other: &Tree, other_lift: Number) -> (bool, bool) {
        let (low, high) = (lift + self.base, lift + self.max());
        if (low, high) != (other_lift + other.base, other_lift + other.max()) {
            return (self.is_below(lift, other, other_lift), other.is_below(other_lift, self, lift));
        }
        let (Some(children), Some(others)) = (&self.children, &other.children) else {
            return (true, true);
        };
        let (right, other_right) = (&children.right, &others.right);
        match children.left.stands(low, &others.left, low) {
            (true, true) => right.stands(low, other_right, low),
            (true, false) => (right.is_below(low, other_right, low), false),
            (false, true) => (false, other_right.is_below(low, right, low)),
            (false, false) => (false, false),
        }
    }

    pub fn order(&self, other: &Tree) -> &'static str {
        match self.stands(0, other, 0) {
            (true, true) => "same",
            (true, false) => "before",
            (false, true) => "after",
            (false, false) => "concurrent",
        }
    }

    /// The number that is the greatest value, and at least `least`, where that is another tree.
    fn flattened(&self, least: Number) -> Option<Tree> {
        (!self.is_leaf() || self.base < least).then(|| Tree::leaf(self.max().max(least)))
    }

    /// The tree with these children in place of its own, if there is one.
    fn with(&self, children: &Children, left: Option<Tree>, right: Option<Tree>) -> Option<Tree> {
        if left.is_none() && right.is_none() {
            return None;
        }
        Some(Tree::fork(
            self.base,
            left.unwrap_or_else(|| children.left.clone()),
            right.unwrap_or_else(|| children.right.clone()),
        ))
    }

    /// Fills the tree. Where that leaves it as it was, it tells the least cost of growing at a point of the id, if it has one,
    /// and adds the turns of the way to there. A turn is whether the way goes right from a node on both sides of which the id
    /// is a pair, the lowest first.
    fn begun(&self, id: &Id, turns: &mut Vec<bool>) -> Begun {
        let halves = match id {
            Id::Zero => return Begun::Unfilled(0),
            Id::One => return Begun::new(self.flattened(0), 0),
            Id::Pair(halves) => halves,
        };
        let Some(children) = &self.children else {
            return Begun::Unfilled(id.expanded(turns));
        };
        let Children { left, right } = &**children;
        match (&halves.left, &halves.right) {
            (Id::One, right_id) => {
                let new_right = right.filled_beside(right_id, turns);
                let new_left = left.flattened(new_right.as_ref().unwrap_or(right).base);
                Begun::new(self.with(children, new_left, new_right), STEP)
            }
            (left_id, Id::One) => {
                let new_left = left.filled_beside(left_id, turns);
                let new_right = right.flattened(new_left.as_ref().unwrap_or(left).base);
                Begun::new(self.with(children, new_left, new_right), STEP)
            }
            (Id::Zero, right_id) => match right.begun(right_id, turns) {
                Begun::Filled(right) => Begun::Filled(Tree::fork(self.base, left.clone(), right)),
                Begun::Unfilled(cost) => Begun::Unfilled(cost + STEP),
            },
            (left_id, Id::Zero) => match left.begun(left_id, turns) {
                Begun::Filled(left) => Begun::Filled(Tree::fork(self.base, left, right.clone())),
                Begun::Unfilled(cost) => Begun::Unfilled(cost + STEP),
            },
            (left_id, right_id) => self.begun_on_both(children, left_id, right_id, turns),
        }
    }

    /// The filled tree, where that is another tree. The other half of the id is one there, and the way goes to that side.
    fn filled_beside(&self, id: &Id, turns: &mut Vec<bool>) -> Option<Tree> {
        let start = turns.len();
        let begun = self.begun(id, turns);
        turns.truncate(start);
        begun.filled()
    }

    fn begun_on_both(&self, children: &Children, left_id: &Id, right_id: &Id, turns: &mut Vec<bool>) -> Begun {
        let start = turns.len();
        let left = children.left.begun(left_id, turns);
        let middle = turns.len();
        let right = children.right.begun(right_id, turns);
        if let (Begun::Unfilled(left), Begun::Unfilled(right)) = (&left, &right) {
            return Begun::Unfilled(cheaper((*left, *right), start, middle, turns) + STEP);
        }
        Begun::new(self.with(children, left.filled(), right.filled()), 0)
    }

    /// The tree grown by the way with these turns.
    fn grown(&self, id: &Id, turns: &mut Vec<bool>) -> Tree {
        let Id::Pair(halves) = id else {
            return Tree::leaf(self.base + 1);
        };
        let (left, right) = self.halves();
        let goes_right = match (&halves.left, &halves.right) {
            (Id::Zero, _) | (_, Id::One) => true,
            (_, Id::Zero) | (Id::One, _) => false,
            _ => turns.pop().expect("a turn of each such node"),
        };
        if goes_right {
            Tree::fork(self.base, left.clone(), right.grown(&halves.right, turns))
        } else {
            Tree::fork(self.base, left.grown(&halves.left, turns), right.clone())
        }
    }

    /// The tree after an event, which makes anew only the path that it raises.
    pub fn event(&self, id: &Id) -> Tree {
        let mut turns = Vec::new();
        match self.begun(id, &mut turns) {
            Begun::Filled(tree) => tree,
            Begun::Unfilled(_) => self.grown(id, &mut turns),
        }
    }

    /// A place that was raised by an event, where this is the tree before it and `after` the one after it. What both share
    /// is passed over, so it walks what the event made anew.
    pub fn raised_place(&self, after: &Tree) -> Option<Place> {
        self.raised(0, after, 0)
    }

    fn raised(&self, lift: Number, after: &Tree, after_lift: Number) -> Option<Place> {
        let (low, after_low) = (lift + self.base, after_lift + after.base);
        if self.is_leaf() && after.is_leaf() || self.shares_children(after) {
            return (low < after_low).then_some(Place::WHOLE);
        }
        let ((left, right), (after_left, after_right)) = (self.halves(), after.halves());
        match left.raised(low, after_left, after_low) {
            Some(place) => Some(place.in_half(0)),
            None => Some(right.raised(low, after_right, after_low)?.in_half(1)),
        }
    }

    /// The value at the point with these halves.
    pub fn value_at(&self, mut halves: u128) -> Number {
        let (mut tree, mut sum) = (self, self.base);
        while let Some(children) = &tree.children {
            tree = if halves & 1 == 0 { &children.left } else { &children.right };
            sum += tree.base;
            halves >>= 1;
        }
        sum
    }

    pub fn write(&self, text: &mut Vec<u8>) {
        match &self.children {
            None => write_number(text, self.base),
            Some(children) => {
                text.push(b'(');
                write_number(text, self.base);
                text.push(b',');
                children.left.write(text);
                text.push(b',');
                children.right.write(text);
                text.push(b')');
            }
        }
    }
}

/// The lesser of the costs to the left and to the right, where both are the same that to the right. Of the turns from
/// `start` on, those to the left and from `middle` on those to the right, only its own are left, and a new one to its side.
fn cheaper((left, right): (Cost, Cost), start: usize, middle: usize, turns: &mut Vec<bool>) -> Cost {
    let goes_right = right <= left;
    if goes_right {
        turns.drain(start..middle);
    } else {
        turns.truncate(middle);
    }
    turns.push(goes_right);
    left.min(right)
}

/// Greater numbers are written by parts, of so many digits each.
const DIGITS: u32 = 8;

const BOUND: Number = Number::pow(10, DIGITS);

#[inline]
pub fn write_number(text: &mut Vec<u8>, n: Number) {
    if n < 10 {
        text.push(b'0' + n as u8);
    } else {
        write_longer_number(text, n);
    }
}

/// The digits are gathered in a word, the first in the lowest byte.
fn write_longer_number(text: &mut Vec<u8>, n: Number) {
    let mut least = 1;
    if n >= BOUND {
        write_number(text, n / BOUND);
        least = DIGITS as usize;
    }
    let (mut digits, mut count, mut rest) = (0_u64, 0, n % BOUND);
    while rest > 0 || count < least {
        digits = digits << 8 | (u64::from(b'0') + rest as u64 % 10);
        rest /= 10;
        count += 1;
    }
    let end = text.len() + count;
    text.extend_from_slice(&digits.to_le_bytes());
    text.truncate(end);
}

/// The text of a stamp.
pub fn write_stamp(id: &Id, tree: &Tree, text: &mut Vec<u8>) {
    text.push(b'[');
    id.write(text);
    text.push(b';');
    tree.write(text);
    text.push(b']');
}
