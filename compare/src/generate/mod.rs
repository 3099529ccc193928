//! The day files of a seed: a catalogue of cases in an order of the seed's own, and random files between them. Its
//! journals stand in a part of their own.

pub mod damage;
pub mod days;
pub mod journals;

mod catalogue;

use crate::random::Random;
use damage::KEYS;

/// A day file and what is special about it.
pub struct Case {
    pub about: String,
    pub bytes: Vec<u8>,
}

/// All files of a seed.
pub struct Files {
    seed: u64,
    catalogue: Vec<Case>,
}

impl Files {
    pub fn new(seed: u64) -> Self {
        let mut random = Random::new(seed);
        let mut catalogue = catalogue::all(&mut random);
        random.shuffle(&mut catalogue);
        Files { seed, catalogue }
    }

    /// The n-th file, counted from 0. Four of five are from the catalogue until it is used up.
    pub fn nth(&self, n: usize) -> Case {
        match self.catalogue.get(n - n / 5) {
            Some(case) if n % 5 != 4 => Case { about: case.about.clone(), bytes: case.bytes.clone() },
            _ => random_case(&mut Random::nth(self.seed, n as u64)),
        }
    }
}

fn random_case(random: &mut Random) -> Case {
    let (about, bytes) = match random.below(16) {
        0 => ("a small good day", days::small(random).bytes()),
        1 => ("a good day of middling size", days::medium(random).bytes()),
        2 => ("a wide day", days::wide(random).bytes()),
        3 => ("limits of changes and quantities", days::hedged(random).bytes()),
        4 => {
            let beyond = random.choose(&[-1_000, -999, -1, 0, 0, 1, 1, 2, 1_000_000]);
            ("a column about its limit", days::at_the_column(random, beyond).bytes())
        }
        5 | 6 => ("one damage", damaged(random, 1)),
        7 | 8 => ("two damages", damaged(random, 2)),
        9 => ("three damages", damaged(random, 3)),
        10 => {
            let mut bytes = some_day(random).bytes();
            damage::bytes_at_random(random, &mut bytes);
            ("some bytes changed", bytes)
        }
        11 => {
            let mut bytes = some_day(random).bytes();
            bytes.truncate(random.below(bytes.len()));
            ("a file cut short", bytes)
        }
        12 => {
            let mut lines = some_day(random).lines();
            let body = random.choose(&[0, 6, 8]).min(lines.len());
            random.shuffle(&mut lines[body..]);
            ("lines out of order", days::ended(&lines))
        }
        13 => {
            let (one, two) = (some_day(random).bytes(), some_day(random).bytes());
            let (head, tail) = (random.below(one.len()), random.below(two.len()));
            ("two files spliced", [&one[..head], &two[tail..]].concat())
        }
        14 => ("a good beginning and words", started(random)),
        _ => {
            let count = random.choose(&[1, 10, 300]);
            ("random bytes", (0..random.below(count)).map(|_| random.next() as u8).collect())
        }
    };
    Case { about: about.into(), bytes }
}

fn some_day(random: &mut Random) -> days::Day {
    match random.below(8) {
        0 => days::medium(random),
        1..=3 => days::plain(random),
        _ => days::small(random),
    }
}

fn damaged(random: &mut Random, times: usize) -> Vec<u8> {
    let mut bytes = some_day(random).bytes();
    for _ in 0..times {
        bytes = damage::at_random(random, &bytes);
    }
    bytes
}

/// A file that is good up to some line, and then words of the format in any order.
fn started(random: &mut Random) -> Vec<u8> {
    let lines = some_day(random).lines();
    let mut bytes = days::ended(&lines[..random.below(lines.len() + 1)]);
    for _ in 0..random.below(30) {
        match random.below(6) {
            0 => bytes.extend(random.pick(&KEYS).as_bytes()),
            1 => bytes.extend(random.pick(&["own", "cli"]).as_bytes()),
            2 => bytes.push(b','),
            3 => bytes.push(10),
            _ => {
                let line = [
                    format!("pos={},{}\n", random.below(3), random.between(-3, 9)),
                    format!("acc=own,{},{}\n", random.below(99), random.below(9)),
                    format!("acc=cli,{},{}\n", random.below(9), random.below(99)),
                    format!("end={}\n", random.below(4)),
                ];
                bytes.extend(line[random.below(4)].as_bytes());
            }
        }
    }
    bytes
}

#[cfg(test)]
mod tests {
    use super::*;
    use crate::dayfile::{read, Layer};
    use std::collections::BTreeSet;

    #[test]
    fn a_seed_gives_the_same_files() {
        let (one, two, other) = (Files::new(1), Files::new(1), Files::new(2));
        assert!((0..100).all(|n| one.nth(n).bytes == two.nth(n).bytes));
        assert!((0..100).any(|n| one.nth(n).bytes != other.nth(n).bytes));
    }

    #[test]
    fn the_catalogue_fits_in_a_usual_run() {
        let count = (0..20).map(|seed| Files::new(seed).catalogue.len()).max().unwrap();
        assert!(count <= 2_000 / 5 * 4, "{count}");
    }

    /// Every fault is met at every kind of line where it can stand.
    #[test]
    fn every_fault_is_met() {
        let mut met = BTreeSet::new();
        for case in &Files::new(1).catalogue {
            let Err(fault) = read(&case.bytes) else { continue };
            let line = case.bytes.split(|byte| *byte == 10).nth(fault.line - 1).unwrap_or(b"");
            let key = String::from_utf8_lossy(damage::parts(line).0).into_owned();
            met.insert((fault.refusal.0, fault.layer, key));
        }
        let on_line = |number: u8, keys: &[&str]| {
            for key in keys {
                let wanted = (number, Layer::Line, key.to_string());
                assert!(met.contains(&wanted), "{wanted:?}");
            }
        };
        on_line(31, &KEYS);
        on_line(31, &[""]);
        on_line(32, &KEYS);
        on_line(33, &["chg=", "end="]);
        on_line(5, &["assets=", "chg="]);
        on_line(34, &["form=", ""]);
        for number in 1..=4 {
            assert!(met.contains(&(number, Layer::Heading, "scen=".to_string())), "{number}");
        }
        for number in 6..=8 {
            assert!(met.contains(&(number, Layer::Tally, "acc=".to_string())), "{number}");
        }
    }

    #[test]
    fn good_files_are_among_them() {
        let files = Files::new(1);
        let good = (0..2_000).filter(|n| read(&files.nth(*n).bytes).is_ok()).count();
        assert!(good > 200, "{good}");
    }
}
