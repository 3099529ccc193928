//! Journal bytes to answers, written from docs/JOURNAL.md.

use crate::book::Book;
use crate::dayfile::{self, unsigned};
use crate::rules::Refusal;
use std::fmt::Write;

/// A part of a journal that answers one line.
#[derive(Clone, Copy, Debug, PartialEq, Eq)]
pub enum Part<'j> {
    /// The bytes of a day file.
    Day(&'j [u8]),
    /// A line, without its byte 10.
    Line(&'j [u8]),
    /// The last line, where it has no byte 10.
    Unended(&'j [u8]),
}

/// Takes the first part off the rest of a journal, with all of its bytes; none where nothing is left.
fn first_part<'j>(rest: &mut &'j [u8]) -> Option<(Part<'j>, &'j [u8])> {
    let whole = *rest;
    let (_, first) = lines(whole).next()?;
    if !first.starts_with(b"form=") {
        let part = match first.strip_suffix(b"\n") {
            Some(line) => Part::Line(line),
            None => Part::Unended(first),
        };
        *rest = &whole[first.len()..];
        return Some((part, first));
    }
    let stop = lines(whole).skip(1).find_map(|(at, line)| {
        if line.starts_with(b"end=") {
            return Some(at + line.len());
        }
        line.starts_with(b"form=").then_some(at)
    });
    let (day, behind) = whole.split_at(stop.unwrap_or(whole.len()));
    *rest = behind;
    Some((Part::Day(day), day))
}

/// The lines, each with its byte 10 and the place where it begins.
fn lines(bytes: &[u8]) -> impl Iterator<Item = (usize, &[u8])> {
    let mut at = 0;
    bytes.split_inclusive(|byte| *byte == 10).map(move |line| {
        let begin = at;
        at += line.len();
        (begin, line)
    })
}

/// The bytes of each part of a journal.
pub fn parts(journal: &[u8]) -> Vec<&[u8]> {
    let mut rest = journal;
    std::iter::from_fn(|| Some(first_part(&mut rest)?.1)).collect()
}

/// Is there a day file at the end of these bytes that would take in what follows them?
pub fn is_open(bytes: &[u8]) -> bool {
    if bytes.last().is_some_and(|byte| *byte != 10) {
        return true;
    }
    let mut rest = bytes;
    let mut last = None;
    while let Some((part, _)) = first_part(&mut rest) {
        last = Some(part);
    }
    matches!(last, Some(Part::Day(day)) if !lines(day).any(|(_, line)| line.starts_with(b"end=")))
}

/// What the program prints for this journal.
pub fn played(journal: &[u8]) -> String {
    let mut player = Player::new();
    player.play(journal);
    player.answers
}

pub struct Player {
    pub book: Book,
    pub answers: String,
    /// How many lines were played.
    lines: usize,
}

impl Player {
    pub fn new() -> Self {
        Player { book: Book::made(), answers: String::new(), lines: 0 }
    }

    /// Plays these bytes, which follow those played before.
    pub fn play(&mut self, journal: &[u8]) {
        let mut rest = journal;
        while let Some((part, bytes)) = first_part(&mut rest) {
            let answer = self.answer(part);
            writeln!(self.answers, "{answer}").expect("a string takes every answer");
            self.lines += bytes.iter().filter(|byte| **byte == 10).count();
        }
    }

    fn answer(&mut self, part: Part) -> String {
        let done = match part {
            Part::Day(bytes) => Some(self.day(bytes)),
            Part::Line(line) => self.call(line),
            Part::Unended(_) => None,
        };
        done.unwrap_or_else(|| format!("unread={}", self.lines + 1))
    }

    fn day(&mut self, bytes: &[u8]) -> String {
        match dayfile::read(bytes) {
            Err(fault) => fault.to_string().trim_end().to_string(),
            Ok(figure) => {
                let booked = format!("{},{},{},{}", figure.member, figure.segment, figure.day, figure.risk);
                told("book", self.book.book(&figure).map(|()| booked))
            }
        }
    }

    /// The answer of a line; none where it is no entry.
    fn call(&mut self, line: &[u8]) -> Option<String> {
        let equals = line.iter().position(|byte| *byte == b'=')?;
        let (name, fields) = (&line[..equals], &line[equals + 1..]);
        let given: Option<Vec<u64>> =
            fields.split(|byte| *byte == b',').map(|field| Some(unsigned(field)? as u64)).collect();
        let ok = |()| "ok".to_string();
        let answer = match (name, &given?[..]) {
            (b"admit", &[member, segment, class, minimum, paid]) => {
                told("admit", self.book.admit(member, segment, class, minimum, paid).map(ok))
            }
            (b"pay", &[member, segment, amount]) => told("pay", self.book.pay(member, segment, amount).map(ok)),
            (b"withdraw", &[member, segment, amount]) => {
                told("withdraw", self.book.withdraw(member, segment, amount).map(ok))
            }
            (b"depart", &[member, segment]) => {
                told("depart", self.book.depart(member, segment).map(|amount| amount.to_string()))
            }
            _ => return None,
        };
        Some(answer)
    }
}

fn told(name: &str, outcome: Result<String, Refusal>) -> String {
    match outcome {
        Ok(answer) => format!("{name}={answer}"),
        Err(Refusal(number)) => format!("{name}=refused,{number}"),
    }
}

#[cfg(test)]
mod tests {
    use super::*;

    const PAGE: &str = include_str!("../../docs/JOURNAL.md");

    /// The blocks of the page, without their fences.
    fn blocks() -> Vec<&'static str> {
        PAGE.split("```\n").skip(1).step_by(2).collect()
    }

    #[test]
    fn the_worked_example() {
        let [journal, answers] = blocks()[..] else { panic!("two blocks are wanted") };
        let mut bytes = String::new();
        for (line, n) in journal.lines().zip(1..) {
            let (number, text) = line.trim_start().split_once("  ").unwrap();
            assert_eq!(number, format!("{n}"));
            bytes += &format!("{text}\n");
        }
        let mut expected = String::new();
        for line in answers.lines() {
            expected += &format!("{}\n", line.split(' ').next().unwrap());
        }
        assert_eq!(played(bytes.strip_suffix('\n').unwrap().as_bytes()), expected);
    }

    #[test]
    fn the_small_journals() {
        let table = PAGE.split("## Small journals").nth(1).unwrap();
        let mut count = 0;
        for row in table.lines().filter(|line| line.starts_with("| `")) {
            let cells: Vec<&str> = row.split('|').map(str::trim).collect();
            let journal = cells[1].trim_matches('`').replace("\\n", "\n").replace("\\r", "\r");
            let answers: Vec<&str> = cells[2].split('`').skip(1).step_by(2).collect();
            let times = if cells[2].ends_with("twice") { 2 } else { 1 };
            let expected = (answers.join("\n") + "\n").repeat(times);
            assert_eq!(played(journal.as_bytes()), expected, "{row}");
            count += 1;
        }
        assert_eq!(count, 12);
        assert_eq!(played(b""), "");
    }

    #[test]
    fn unread_lines() {
        let table = PAGE.split("## Lines that are no entry").nth(1).unwrap();
        let mut count = 0;
        for row in table.lines().filter(|line| line.starts_with("| ")).skip(1) {
            let examples = row.split('|').nth(2).unwrap();
            for line in examples.split('`').skip(1).step_by(2).filter(|line| !line.starts_with("depart=7,3")) {
                assert_eq!(played(format!("{line}\n").as_bytes()), "unread=1\n", "{line}");
                count += 1;
            }
            if row.contains("empty line") {
                break;
            }
        }
        assert_eq!(count, 21);
    }

    #[test]
    fn numbers_reach_their_call() {
        let ask = |line: &str| played(format!("admit=1,1,1,5,9\n{line}\n").as_bytes())[9..].to_string();
        assert_eq!(ask("admit=4294967297,1,1,1,1"), "admit=refused,1\n");
        assert_eq!(ask("admit=9999999999999,1,1,1,1"), "admit=refused,1\n");
        assert_eq!(ask("admit=10000000000000,1,1,1,1"), "unread=2\n");
        assert_eq!(ask("admit=2,4294967297,1,1,1"), "admit=refused,2\n");
        assert_eq!(ask("admit=2,1,257,1,1"), "admit=refused,12\n");
        assert_eq!(ask("admit=2,1,1,4294967297,1"), "admit=refused,13\n");
        assert_eq!(ask("admit=2,1,1,1,4294967297"), "admit=refused,14\n");
        assert_eq!(ask("pay=1,1,9999999999999"), "pay=refused,14\n");
        assert_eq!(ask("withdraw=1,1,4294967297"), "withdraw=refused,14\n");
        assert_eq!(ask("withdraw=1,1,5"), "withdraw=refused,24\n");
        assert_eq!(ask("withdraw=1,1,4"), "withdraw=ok\n");
        assert_eq!(ask("depart=257,1"), "depart=refused,1\n");
        assert_eq!(ask("depart=1,1"), "depart=9\n");
    }

    #[test]
    fn a_long_day_file() {
        let mut journal = b"form=1\n".to_vec();
        journal.resize(60_001, b'x');
        assert_eq!(played(&journal), "refused=34,1,L\n");
        journal.extend(b"\nend=0\npay=1,1,1\n\n");
        assert_eq!(played(&journal), "refused=34,1,L\npay=refused,16\nunread=5\n");
    }

    #[test]
    fn parts_are_the_journal() {
        let journal = b"pay=1\n\nform=1\nx\nform=2\nend=0\nend=1\nform=3\ny";
        let found = parts(journal);
        let expected: [&[u8]; 6] =
            [b"pay=1\n", b"\n", b"form=1\nx\n", b"form=2\nend=0\n", b"end=1\n", b"form=3\ny"];
        assert_eq!(found, expected);
        assert!(is_open(journal) && is_open(b"form=1\n") && is_open(b"x"));
        assert!(!is_open(b"") && !is_open(b"x\n") && !is_open(b"form=1\nend=\n"));
    }
}
