//! Day file bytes to a report, written from docs/DAYFILE.md.

use crate::rules::{Account, Heading, Kind, Position, Refusal, Sheet, Tally, ASSETS, CHANGES, POSITIONS};
use std::fmt;

pub const MOST_BYTES: usize = 60_000;
const MOST_DIGITS: usize = 13;
const HEADING_LINE: usize = 5;

#[derive(Clone, Copy, Debug, PartialEq, Eq, PartialOrd, Ord)]
pub enum Layer {
    Line,
    Heading,
    Tally,
}

#[derive(Clone, Copy, Debug, PartialEq, Eq)]
pub struct Fault {
    pub refusal: Refusal,
    pub line: usize,
    pub layer: Layer,
}

impl fmt::Display for Fault {
    fn fmt(&self, f: &mut fmt::Formatter<'_>) -> fmt::Result {
        let layer = match self.layer {
            Layer::Line => 'L',
            Layer::Heading => 'H',
            Layer::Tally => 'T',
        };
        writeln!(f, "refused={},{},{}", self.refusal.0, self.line, layer)
    }
}

#[derive(Clone, Copy, Debug, PartialEq, Eq)]
pub struct Figure {
    pub member: i64,
    pub segment: i64,
    pub day: i64,
    pub risk: i128,
}

impl fmt::Display for Figure {
    fn fmt(&self, f: &mut fmt::Formatter<'_>) -> fmt::Result {
        writeln!(f, "member={}", self.member)?;
        writeln!(f, "segment={}", self.segment)?;
        writeln!(f, "day={}", self.day)?;
        writeln!(f, "risk={}", self.risk)
    }
}

/// What the program prints for these bytes.
pub fn printed(bytes: &[u8]) -> String {
    match read(bytes) {
        Ok(figure) => figure.to_string(),
        Err(fault) => fault.to_string(),
    }
}

/// The figure of a day file, or its first fault.
pub fn read(bytes: &[u8]) -> Result<Figure, Fault> {
    if bytes.len() > MOST_BYTES {
        return Err(Fault { refusal: Refusal(34), line: 1, layer: Layer::Line });
    }
    let mut file = Reader { rest: bytes, next: 1 };

    let form = file.line(&[Key::Form])?;
    if form.number()? != 1 {
        return Err(form.fault(32));
    }
    let heading = Heading {
        member: file.line(&[Key::Member])?.number()?,
        segment: file.line(&[Key::Segment])?.number()?,
        day: file.line(&[Key::Day])?.number()?,
        scenarios: file.line(&[Key::Scen])?.number()?,
    };
    heading.check().map_err(|refusal| Fault { refusal, line: HEADING_LINE, layer: Layer::Heading })?;
    let scenarios = heading.scenarios as usize;

    let assets = file.line(&[Key::Assets])?;
    let count = assets.number()?;
    if !ASSETS.contains(&count) {
        return Err(assets.fault(5));
    }
    let sheet: Sheet = (0..count).map(|_| file.line(&[Key::Chg])?.changes(scenarios)).collect::<Result<_, _>>()?;

    let risk = accounts(&mut file, Tally::open(scenarios, &sheet))?;
    if !file.rest.is_empty() {
        return Err(Fault { refusal: Refusal(34), line: file.next, layer: Layer::Line });
    }
    let Heading { member, segment, day, .. } = heading;
    Ok(Figure { member, segment, day, risk })
}

/// An account that waits for its last position.
struct Pending {
    line: usize,
    account: Account,
}

/// The part of the file from the first account to `end`, and the figure struck there.
fn accounts(file: &mut Reader, mut tally: Tally) -> Result<i128, Fault> {
    let mut added = 0;
    let mut pending: Option<Pending> = None;
    loop {
        if !file.rest.starts_with(b"pos=") {
            if let Some(Pending { line, account }) = pending.take() {
                tally.add(&account).map_err(|refusal| Fault { refusal, line, layer: Layer::Tally })?;
                added += 1;
            }
        }
        match &mut pending {
            Some(Pending { line, account }) => {
                account.positions.push(file.line(&[Key::Pos])?.position()?);
                if account.positions.len() > POSITIONS {
                    return Err(Fault { refusal: Refusal(6), line: *line, layer: Layer::Tally });
                }
            }
            None => {
                let line = file.line(&[Key::Acc, Key::End])?;
                if line.key == Key::End {
                    return match line.number()? == added {
                        true => Ok(tally.strike()),
                        false => Err(line.fault(33)),
                    };
                }
                pending = Some(Pending { line: line.at, account: line.account()? });
            }
        }
    }
}

#[derive(Clone, Copy, Debug, PartialEq, Eq)]
enum Key {
    Form,
    Member,
    Segment,
    Day,
    Scen,
    Assets,
    Chg,
    Acc,
    Pos,
    End,
}

impl Key {
    fn text(self) -> &'static [u8] {
        match self {
            Key::Form => b"form=",
            Key::Member => b"member=",
            Key::Segment => b"segment=",
            Key::Day => b"day=",
            Key::Scen => b"scen=",
            Key::Assets => b"assets=",
            Key::Chg => b"chg=",
            Key::Acc => b"acc=",
            Key::Pos => b"pos=",
            Key::End => b"end=",
        }
    }
}

/// The bytes not yet read, and the number of the line that they begin with.
struct Reader<'a> {
    rest: &'a [u8],
    next: usize,
}

impl<'a> Reader<'a> {
    /// Takes the next line, which must be ended and have one of these keys.
    fn line(&mut self, keys: &[Key]) -> Result<Line<'a>, Fault> {
        let at = self.next;
        let unexpected = Fault { refusal: Refusal(31), line: at, layer: Layer::Line };
        let end = self.rest.iter().position(|byte| *byte == 10).ok_or(unexpected)?;
        let (text, rest) = (&self.rest[..end], &self.rest[end + 1..]);
        let (key, fields) =
            keys.iter().find_map(|key| Some((*key, text.strip_prefix(key.text())?))).ok_or(unexpected)?;
        self.rest = rest;
        self.next += 1;
        Ok(Line { at, key, fields: fields.split(|byte| *byte == b',').collect() })
    }
}

/// A line that is ended and has its key.
struct Line<'a> {
    at: usize,
    key: Key,
    fields: Vec<&'a [u8]>,
}

impl Line<'_> {
    fn fault(&self, number: u8) -> Fault {
        Fault { refusal: Refusal(number), line: self.at, layer: Layer::Line }
    }

    /// The one unsigned number of the line.
    fn number(&self) -> Result<i64, Fault> {
        match self.fields[..] {
            [field] => unsigned(field).ok_or(self.fault(32)),
            _ => Err(self.fault(32)),
        }
    }

    fn changes(&self, scenarios: usize) -> Result<Vec<i64>, Fault> {
        let changes: Option<Vec<i64>> = self.fields.iter().map(|field| signed(field)).collect();
        let changes = changes.ok_or(self.fault(32))?;
        if changes.len() != scenarios {
            return Err(self.fault(33));
        }
        if !changes.iter().all(|change| CHANGES.contains(change)) {
            return Err(self.fault(5));
        }
        Ok(changes)
    }

    fn account(&self) -> Result<Account, Fault> {
        let account = || {
            let [kind, required, posted] = self.fields[..] else { return None };
            let kind = match kind {
                b"own" => Kind::Own,
                b"cli" => Kind::Client,
                _ => return None,
            };
            let (required, posted) = (unsigned(required)?, unsigned(posted)?);
            Some(Account { kind, required, posted, positions: Vec::new() })
        };
        account().ok_or(self.fault(32))
    }

    fn position(&self) -> Result<Position, Fault> {
        let position = || {
            let [asset, quantity] = self.fields[..] else { return None };
            Some(Position { asset: unsigned(asset)?, quantity: signed(quantity)? })
        };
        position().ok_or(self.fault(32))
    }
}

/// An unsigned number; none where the field is no such number.
pub fn unsigned(field: &[u8]) -> Option<i64> {
    let plain = (1..=MOST_DIGITS).contains(&field.len())
        && field.iter().all(u8::is_ascii_digit)
        && (field == b"0" || field[0] != b'0');
    if !plain {
        return None;
    }
    std::str::from_utf8(field).ok()?.parse().ok()
}

fn signed(field: &[u8]) -> Option<i64> {
    match field.strip_prefix(b"-") {
        Some(digits) => unsigned(digits).filter(|number| *number != 0).map(|number| -number),
        None => unsigned(field),
    }
}

#[cfg(test)]
mod tests {
    use super::*;

    const EXAMPLE: [&str; 14] = [
        "form=1",
        "member=7",
        "segment=3",
        "day=120",
        "scen=2",
        "assets=2",
        "chg=-500,300",
        "chg=1000,-2000",
        "acc=own,1000000,0",
        "pos=0,4000",
        "acc=cli,900000,250000",
        "pos=0,-1000",
        "pos=1,600",
        "end=2",
    ];

    fn text(lines: &[&str]) -> String {
        lines.iter().map(|line| format!("{line}\n")).collect()
    }

    /// The example with some of its lines, counted from 1, replaced.
    fn with(changed: &[(usize, &str)]) -> String {
        let mut lines = EXAMPLE;
        for (line, text) in changed {
            lines[line - 1] = text;
        }
        printed(text(&lines).as_bytes())
    }

    #[test]
    fn the_example() {
        assert_eq!(with(&[]), "member=7\nsegment=3\nday=120\nrisk=1250\n");
    }

    #[test]
    fn faults_of_lines() {
        assert_eq!(printed(b""), "refused=31,1,L\n");
        assert_eq!(with(&[(1, " form=1")]), "refused=31,1,L\n");
        assert_eq!(with(&[(1, "form=1\r")]), "refused=32,1,L\n");
        assert_eq!(with(&[(1, "form=2")]), "refused=32,1,L\n");
        assert_eq!(with(&[(2, "member=07")]), "refused=32,2,L\n");
        assert_eq!(with(&[(2, "member=7,7")]), "refused=32,2,L\n");
        assert_eq!(with(&[(5, "scen=3")]), "refused=33,7,L\n");
        assert_eq!(with(&[(6, "assets=65")]), "refused=5,6,L\n");
        assert_eq!(with(&[(6, "assets=1")]), "refused=31,8,L\n");
        assert_eq!(with(&[(6, "assets=3")]), "refused=31,9,L\n");
        assert_eq!(with(&[(7, "chg=")]), "refused=32,7,L\n");
        assert_eq!(with(&[(7, "chg=-500,300,7")]), "refused=33,7,L\n");
        assert_eq!(with(&[(7, "chg=-500,300,")]), "refused=32,7,L\n");
        assert_eq!(with(&[(7, "chg=-1000001,300")]), "refused=5,7,L\n");
        assert_eq!(with(&[(7, "chg=-1000001")]), "refused=33,7,L\n");
        assert_eq!(with(&[(9, "acc=client,1000000,0")]), "refused=32,9,L\n");
        assert_eq!(with(&[(9, "acc=own,1000000")]), "refused=32,9,L\n");
        assert_eq!(printed(text(&[&EXAMPLE[..8], &EXAMPLE[9..]].concat()).as_bytes()), "refused=31,9,L\n");
        assert_eq!(printed(text(&[&EXAMPLE[..10], &EXAMPLE[11..]].concat()).as_bytes()), "refused=33,13,L\n");
    }

    #[test]
    fn faults_of_the_heading() {
        assert_eq!(with(&[(2, "member=65")]), "refused=1,5,H\n");
        assert_eq!(with(&[(2, "member=65"), (4, "day=0")]), "refused=1,5,H\n");
        assert_eq!(with(&[(3, "segment=6"), (4, "day=0")]), "refused=2,5,H\n");
        assert_eq!(with(&[(4, "day=1000001"), (5, "scen=0")]), "refused=3,5,H\n");
        assert_eq!(with(&[(5, "scen=9999999999999")]), "refused=4,5,H\n");
        assert_eq!(with(&[(2, "member=65"), (5, "scen=x")]), "refused=32,5,L\n");
        assert_eq!(with(&[(2, "member=65"), (6, "assets=x")]), "refused=1,5,H\n");
    }

    #[test]
    fn faults_of_accounts() {
        assert_eq!(with(&[(9, "acc=own,1000000000001,0")]), "refused=7,9,T\n");
        assert_eq!(with(&[(9, "acc=own,1000000,1000000000001")]), "refused=7,9,T\n");
        assert_eq!(with(&[(10, "pos=2,4000")]), "refused=6,9,T\n");
        assert_eq!(with(&[(10, "pos=0,0"), (11, "acc=")]), "refused=6,9,T\n");
        assert_eq!(with(&[(12, "pos=0,0"), (13, "pos=1,-0")]), "refused=32,13,L\n");
        assert_eq!(with(&[(10, "pos=0,10000001"), (11, "")]), "refused=6,9,T\n");
        assert_eq!(with(&[(12, "pos=0,0"), (14, "end=3")]), "refused=6,11,T\n");
    }

    #[test]
    fn faults_at_the_end() {
        let whole = text(&EXAMPLE);
        let ended = |lines: usize| text(&EXAMPLE[..lines]);
        assert_eq!(printed(ended(10).as_bytes()), "refused=31,11,L\n");
        assert_eq!(printed((ended(9) + "pos=0,0\n").as_bytes()), "refused=6,9,T\n");
        assert_eq!(printed((ended(9) + "pos=0,0\npos=").as_bytes()), "refused=31,11,L\n");
        assert_eq!(printed((ended(9) + "pos=0,0\npos").as_bytes()), "refused=6,9,T\n");
        assert_eq!(printed((ended(11) + "pos=0,-1").as_bytes()), "refused=31,12,L\n");
        assert_eq!(printed((ended(13) + "end=3\nx\n").as_bytes()), "refused=33,14,L\n");
        assert_eq!(printed((whole.clone() + "\n").as_bytes()), "refused=34,15,L\n");
        assert_eq!(printed((whole.clone() + "x").as_bytes()), "refused=34,15,L\n");
        assert_eq!(printed(&whole.as_bytes()[..whole.len() - 1]), "refused=31,14,L\n");
    }

    #[test]
    fn a_file_without_accounts() {
        let lines = ["form=1", "member=64", "segment=5", "day=1000000", "scen=1", "assets=1", "chg=0", "end=0"];
        assert_eq!(printed(text(&lines).as_bytes()), "member=64\nsegment=5\nday=1000000\nrisk=0\n");
    }

    #[test]
    fn the_limit_of_a_column() {
        let mut lines = [
            "form=1",
            "member=1",
            "segment=1",
            "day=1",
            "scen=1",
            "assets=1",
            "chg=-1000000",
            "acc=own,0,0",
            "pos=0,1000000",
            "acc=cli,5,0",
            "acc=own,0,0",
            "pos=0,1",
            "end=3",
        ];
        assert_eq!(printed(text(&lines).as_bytes()), "refused=8,11,T\n");
        lines[10] = "acc=own,1000000,0";
        assert_eq!(printed(text(&lines).as_bytes()), "member=1\nsegment=1\nday=1\nrisk=1000000000\n");
    }

    #[test]
    fn the_sixty_fifth_position() {
        let head = text(&EXAMPLE[..9]);
        let many = |count: usize| "pos=0,1\n".repeat(count);
        let good = "member=7\nsegment=3\nday=120\nrisk=0\n";
        assert_eq!(printed((head.clone() + &many(64) + "end=1\n").as_bytes()), good);
        assert_eq!(printed((head.clone() + &many(65) + "end=1\n").as_bytes()), "refused=6,9,T\n");
        assert_eq!(printed((head.clone() + &many(65) + "pos=x\n").as_bytes()), "refused=6,9,T\n");
        assert_eq!(printed((head.clone() + &many(64) + "pos=0,01\n").as_bytes()), "refused=32,74,L\n");
        assert_eq!(printed((head.clone() + &many(64) + "pos=0,1").as_bytes()), "refused=31,74,L\n");
    }

    #[test]
    fn the_length_of_a_file() {
        let mut long = text(&EXAMPLE).into_bytes();
        long.resize(MOST_BYTES, b' ');
        assert_eq!(printed(&long), "refused=34,15,L\n");
        long.push(b' ');
        assert_eq!(printed(&long), "refused=34,1,L\n");
        assert_eq!(printed(&vec![b'x'; MOST_BYTES]), "refused=31,1,L\n");
        assert_eq!(printed(&vec![b'x'; MOST_BYTES + 1]), "refused=34,1,L\n");
    }

    #[test]
    fn numbers() {
        for good in ["0", "7", "9999999999999"] {
            assert_eq!(unsigned(good.as_bytes()), good.parse().ok());
            assert_eq!(signed(good.as_bytes()), good.parse().ok());
        }
        for good in ["-7", "-9999999999999"] {
            assert_eq!(unsigned(good.as_bytes()), None);
            assert_eq!(signed(good.as_bytes()), good.parse().ok());
        }
        for bad in ["", "-", "-0", "00", "07", "+7", " 7", "7 ", "7.0", "1e3", "--7", "-07", "10000000000000"] {
            assert_eq!(signed(bad.as_bytes()), None, "{bad:?}");
            assert_eq!(unsigned(bad.as_bytes()), None, "{bad:?}");
        }
    }
}
