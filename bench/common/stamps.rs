// Reads the texts of stamps in plain Rust, for the folders trees and checks: a text is refused without a place.
use crate::clock::{Id, Tree};

pub struct Stamp {
    pub id: Id,
    pub tree: Tree,
}

const MOST_NESTED: usize = 2048;

const GREATEST_SUM: u64 = i64::MAX as u64;

struct Reader<'a> {
    rest: &'a [u8],
}

impl Reader<'_> {
    fn next(&mut self) -> Option<u8> {
        let (first, rest) = self.rest.split_first()?;
        self.rest = rest;
        Some(*first)
    }

    fn take(&mut self, byte: u8) -> Option<()> {
        if self.next()? == byte {
            Some(())
        } else {
            None
        }
    }

    fn id(&mut self, nested: usize) -> Option<Id> {
        match self.next()? {
            b'0' => Some(Id::Zero),
            b'1' => Some(Id::One),
            b'(' if nested < MOST_NESTED => {
                let left = self.id(nested + 1)?;
                self.take(b',')?;
                let right = self.id(nested + 1)?;
                self.take(b')')?;
                match (&left, &right) {
                    (Id::Zero, Id::Zero) | (Id::One, Id::One) => None,
                    _ => Some(Id::pair(left, right)),
                }
            }
            _ => None,
        }
    }

    fn number(&mut self) -> Option<u64> {
        let first = self.next()?;
        if !first.is_ascii_digit() {
            return None;
        }
        let mut n = u64::from(first - b'0');
        while let Some(digit) = self.rest.first().filter(|byte| byte.is_ascii_digit()) {
            if n == 0 {
                return None;
            }
            n = n.checked_mul(10)?.checked_add(u64::from(digit - b'0'))?;
            self.rest = &self.rest[1..];
        }
        Some(n)
    }

    fn tree(&mut self, nested: usize, sum: u64) -> Option<Tree> {
        if self.rest.first() != Some(&b'(') {
            return self.number().filter(|n| *n <= GREATEST_SUM - sum).map(Tree::leaf);
        }
        if nested == MOST_NESTED {
            return None;
        }
        self.next();
        let base = self.number().filter(|n| *n <= GREATEST_SUM - sum)?;
        self.take(b',')?;
        let left = self.tree(nested + 1, sum + base)?;
        self.take(b',')?;
        let right = self.tree(nested + 1, sum + base)?;
        self.take(b')')?;
        if left.min() != 0 && right.min() != 0 {
            return None;
        }
        Some(Tree::fork(base, left, right)).filter(|tree| !tree.is_leaf())
    }

    fn stamp(mut self) -> Option<Stamp> {
        self.take(b'[')?;
        let id = self.id(0)?;
        self.take(b';')?;
        let tree = self.tree(0, 0)?;
        self.take(b']')?;
        self.rest.is_empty().then_some(Stamp { id, tree })
    }
}

pub fn read(text: &[u8]) -> Option<Stamp> {
    Reader { rest: text }.stamp()
}
