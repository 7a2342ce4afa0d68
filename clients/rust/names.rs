//! Names that no other task or message of the process has.

use crate::environment::MOST_NAME;
use std::collections::HashMap;

/// So many names that the program has given are known at most. Later ones have a number.
const MOST_HINTS: usize = 8192;

/// The names of the tasks of a process, short and readable. Each begins with the same prefix.
#[derive(Debug, Default)]
pub(crate) struct Names {
    prefix: String,
    /// The highest number that each name has. One that is numbered itself is kept by the name that it was made of.
    known: HashMap<String, usize>,
}

impl Names {
    pub fn new(prefix: String, taken: &str) -> Names {
        Names { prefix, known: HashMap::from([(taken.into(), 1)]) }
    }

    pub fn prefix(&self) -> &str {
        &self.prefix
    }

    /// A name for a task, by what it may be called.
    pub fn fresh(&mut self, hint: &str) -> String {
        let room = MOST_NAME - self.prefix.len();
        let mut base = clean(hint, room);
        if !self.known.contains_key(&base) {
            if self.known.len() >= MOST_HINTS {
                base = "task".into(); // So many names are not kept.
            } else if !self.is_numbered(&base) {
                let name = format!("{}{base}", self.prefix);
                self.known.insert(base, 1);
                return name;
            }
        }
        let mut number = 2;
        loop {
            let digits = format!("_{number}");
            let stem = &base[..base.len().min(room - digits.len())];
            match self.known.get(stem) {
                Some(known) if number <= *known => number = known + 1,
                _ => {
                    let name = format!("{stem}{digits}");
                    self.known.insert(stem.into(), number);
                    if !self.known.contains_key(&name) {
                        return self.prefix.clone() + &name;
                    }
                }
            }
        }
    }

    /// Whether a task was given the name with a number: `work_2` is the second one that is called `work`.
    fn is_numbered(&self, base: &str) -> bool {
        let Some((stem, number)) = base.rsplit_once('_') else { return false };
        number.parse().is_ok_and(|number: usize| number > 1 && self.known.get(stem).is_some_and(|known| *known >= number))
    }

    /// A name with this number, which no other message has.
    pub fn numbered(&self, hint: &str, number: usize) -> String {
        let digits = format!("_{number}");
        let cut = &hint[..hint.len().min(MOST_NAME - self.prefix.len() - digits.len())];
        format!("{}{cut}{digits}", self.prefix)
    }
}

/// The letters and digits of a hint.
fn clean(hint: &str, room: usize) -> String {
    let letters: String = hint.chars().map(|next| if next.is_ascii_alphanumeric() { next } else { '_' }).collect();
    let words: Vec<&str> = letters.split('_').filter(|word| !word.is_empty()).collect();
    let cut: String = words.join("_").chars().take(room).collect();
    match cut.trim_matches('_') {
        "" => "task".into(),
        name => name.into(),
    }
}

#[cfg(test)]
mod tests {
    use super::*;
    use std::collections::HashSet;

    #[test]
    fn no_name_comes_twice_and_few_are_kept() {
        let mut names = Names::new("shop_".into(), "others");
        let mut seen = HashSet::new();
        for number in 0..3 * MOST_HINTS {
            for hint in ["work", "work_2", "a name that is far too long for that", "", &format!("work_{number}"), &format!("own{number}")] {
                let name = names.fresh(hint);
                assert!(name.len() <= MOST_NAME && seen.insert(name.clone()), "{name}");
            }
        }
        assert!(names.known.len() < 2 * MOST_HINTS);
        assert_eq!(names.numbered("out", 1_234_567_890_123), "shop_out_1234567890123");
    }
}
