//! Ways to damage a line or a file.

use super::days::Lines;
use crate::random::Random;

pub const KEYS: [&str; 10] =
    ["form=", "member=", "segment=", "day=", "scen=", "assets=", "chg=", "acc=", "pos=", "end="];

/// Fields that are no number anywhere.
pub const NO_NUMBERS: [&[u8]; 20] = [
    b"",
    b"-",
    b"-0",
    b"00",
    b"01",
    b"-01",
    b"+1",
    b" 1",
    b"1 ",
    b"1\r",
    b"1-",
    b"a",
    b"\0",
    b"\xff",
    b"/",
    b":",
    b"12345678901234",
    b"-12345678901234",
    b"00000000000001",
    b"18446744073709551617",
];

/// Numbers at the limits, one past them, and where a narrow number would come round again.
pub const NUMBERS: [&str; 27] = [
    "0",
    "1",
    "-1",
    "5",
    "6",
    "64",
    "65",
    "256",
    "257",
    "65537",
    "1000000",
    "1000001",
    "-1000000",
    "-1000001",
    "10000000",
    "10000001",
    "-10000000",
    "-10000001",
    "2147483648",
    "-2147483649",
    "4294967296",
    "4294967297",
    "999999999999",
    "1000000000000",
    "1000000000001",
    "9999999999999",
    "-9999999999999",
];

pub const NO_KINDS: [&[u8]; 10] =
    [b"", b"ow", b"owns", b"OWN", b"client", b"own ", b" cli", b"clo", b"own\0", b"1"];

/// What may be done to one line of a file.
#[derive(Clone, Copy, Debug)]
pub enum Damage {
    Dropped,
    Doubled,
    SwappedWithNext,
    EmptyLineBefore,
    StrangeLineBefore,
    CutUnended,
    CutAfter,
    CarriageReturn,
    SpaceBehind,
    SpaceBefore,
    SpaceAfterKey,
    CommaBehind,
    CommaBefore,
    FieldMore,
    FieldLess,
    NoFields,
    CapitalKey,
    NoEquals,
    TwoEquals,
    SpaceBeforeEquals,
    ZeroByteBehind,
    JoinedToNext,
}

impl Damage {
    pub const ALL: [Damage; 22] = [
        Damage::Dropped,
        Damage::Doubled,
        Damage::SwappedWithNext,
        Damage::EmptyLineBefore,
        Damage::StrangeLineBefore,
        Damage::CutUnended,
        Damage::CutAfter,
        Damage::CarriageReturn,
        Damage::SpaceBehind,
        Damage::SpaceBefore,
        Damage::SpaceAfterKey,
        Damage::CommaBehind,
        Damage::CommaBefore,
        Damage::FieldMore,
        Damage::FieldLess,
        Damage::NoFields,
        Damage::CapitalKey,
        Damage::NoEquals,
        Damage::TwoEquals,
        Damage::SpaceBeforeEquals,
        Damage::ZeroByteBehind,
        Damage::JoinedToNext,
    ];

    /// Damages line `at`, counted from 0. Gives the file's bytes.
    pub fn done_to(self, lines: &Lines, at: usize) -> Vec<u8> {
        let mut lines = lines.clone();
        match self {
            Damage::Dropped => drop(lines.remove(at)),
            Damage::Doubled => lines.insert(at, lines[at].clone()),
            Damage::SwappedWithNext if at + 1 < lines.len() => lines.swap(at, at + 1),
            Damage::EmptyLineBefore => lines.insert(at, Vec::new()),
            Damage::StrangeLineBefore => lines.insert(at, b"note=1".to_vec()),
            Damage::CutUnended => {
                lines.truncate(at + 1);
                let mut bytes = super::days::ended(&lines);
                bytes.pop();
                return bytes;
            }
            Damage::CutAfter => lines.truncate(at + 1),
            Damage::JoinedToNext if at + 1 < lines.len() => {
                let next = lines.remove(at + 1);
                lines[at].extend(next);
            }
            Damage::SwappedWithNext | Damage::JoinedToNext => lines[at].reverse(),
            _ => lines[at] = self.done_within(&lines[at]),
        }
        super::days::ended(&lines)
    }

    fn done_within(self, line: &[u8]) -> Vec<u8> {
        let (key, fields) = parts(line);
        let mut parts: Vec<&[u8]> = fields.split(|byte| *byte == b',').collect();
        match self {
            Damage::CarriageReturn => [line, b"\r"].concat(),
            Damage::SpaceBehind => [line, b" "].concat(),
            Damage::SpaceBefore => [b" ", line].concat(),
            Damage::SpaceAfterKey => [key, b" ", fields].concat(),
            Damage::CommaBehind => [line, b","].concat(),
            Damage::CommaBefore => [key, b",", fields].concat(),
            Damage::FieldMore => [line, b",1"].concat(),
            Damage::FieldLess => {
                parts.pop();
                [key, &parts.join(&b","[..])].concat()
            }
            Damage::NoFields => key.to_vec(),
            Damage::CapitalKey => [&key.to_ascii_uppercase(), fields].concat(),
            Damage::NoEquals => [key.strip_suffix(b"=").unwrap_or(key), fields].concat(),
            Damage::TwoEquals => [key, b"=", fields].concat(),
            Damage::SpaceBeforeEquals => [key.strip_suffix(b"=").unwrap_or(key), b" =", fields].concat(),
            _ => [line, b"\0"].concat(),
        }
    }
}

/// A line's key with its `=`, and the rest.
pub fn parts(line: &[u8]) -> (&[u8], &[u8]) {
    let key = line.iter().position(|byte| *byte == b'=').map_or(0, |at| at + 1);
    line.split_at(key)
}

pub fn field_count(line: &[u8]) -> usize {
    parts(line).1.split(|byte| *byte == b',').count()
}

/// The line with its n-th field, counted from 0, replaced.
pub fn with_field(line: &[u8], n: usize, field: &[u8]) -> Vec<u8> {
    let (key, fields) = parts(line);
    let mut parts: Vec<&[u8]> = fields.split(|byte| *byte == b',').collect();
    parts[n] = field;
    [key, &parts.join(&b","[..])].concat()
}

pub fn with_key(line: &[u8], key: &str) -> Vec<u8> {
    [key.as_bytes(), parts(line).1].concat()
}

/// One random damage to a line or a field.
pub fn at_random(random: &mut Random, bytes: &[u8]) -> Vec<u8> {
    let lines: Lines = bytes.split(|byte| *byte == 10).map(<[u8]>::to_vec).collect();
    let at = random.below(lines.len());
    if random.once_in(2) {
        let mut changed = Damage::ALL[random.below(Damage::ALL.len())].done_to(&lines, at);
        // The part after the last byte 10 was taken for a line.
        if changed.last() == Some(&10) {
            changed.pop();
        }
        return changed;
    }
    let mut lines = lines;
    let n = random.below(field_count(&lines[at]));
    let field = match random.below(3) {
        0 => random.pick(&NO_NUMBERS).to_vec(),
        1 => random.pick(&NUMBERS).as_bytes().to_vec(),
        _ => random.between(-9, 99).to_string().into_bytes(),
    };
    lines[at] = with_field(&lines[at], n, &field);
    lines.join(&10)
}

/// A few random changes of bytes.
pub fn bytes_at_random(random: &mut Random, bytes: &mut Vec<u8>) {
    const TELLING: &[u8] = b"\n\n,,==--0019acdmnopsx \r\0\xff";
    for _ in 0..1 + random.below(3) {
        if bytes.is_empty() {
            return;
        }
        let at = random.below(bytes.len());
        let new = if random.once_in(4) { random.below(256) as u8 } else { random.choose(TELLING) };
        match random.below(5) {
            0 => bytes.insert(at, new),
            1 => drop(bytes.remove(at)),
            2 => bytes[at] ^= 1 << random.below(8),
            3 => bytes.swap(at, random.below(at + 1)),
            _ => bytes[at] = new,
        }
    }
}
