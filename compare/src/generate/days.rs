//! Good days, small and at the limits, and days that are good but for one account.

use crate::random::Random;
use crate::rules::{Account, Kind, Position, CHANGES, COLUMN, MARGIN, QUANTITIES};

pub type Lines = Vec<Vec<u8>>;

/// What a day file says.
#[derive(Clone)]
pub struct Day {
    pub member: i64,
    pub segment: i64,
    pub day: i64,
    pub scenarios: usize,
    /// A row for each asset.
    pub changes: Vec<Vec<i64>>,
    pub accounts: Vec<Account>,
}

impl Day {
    pub fn lines(&self) -> Lines {
        let mut lines: Vec<String> = vec![
            "form=1".into(),
            format!("member={}", self.member),
            format!("segment={}", self.segment),
            format!("day={}", self.day),
            format!("scen={}", self.scenarios),
            format!("assets={}", self.changes.len()),
        ];
        for row in &self.changes {
            let row: Vec<String> = row.iter().map(i64::to_string).collect();
            lines.push(format!("chg={}", row.join(",")));
        }
        for account in &self.accounts {
            lines.extend(account_lines(account));
        }
        lines.push(format!("end={}", self.accounts.len()));
        lines.into_iter().map(String::into_bytes).collect()
    }

    pub fn bytes(&self) -> Vec<u8> {
        ended(&self.lines())
    }
}

fn account_lines(account: &Account) -> Vec<String> {
    let kind = match account.kind {
        Kind::Own => "own",
        Kind::Client => "cli",
    };
    let mut lines = vec![format!("acc={kind},{},{}", account.required, account.posted)];
    lines.extend(account.positions.iter().map(|p| format!("pos={},{}", p.asset, p.quantity)));
    lines
}

/// The lines, each ended by byte 10.
pub fn ended(lines: &[Vec<u8>]) -> Vec<u8> {
    let mut bytes = Vec::new();
    for line in lines {
        bytes.extend_from_slice(line);
        bytes.push(10);
    }
    bytes
}

pub fn position(asset: usize, quantity: i64) -> Position {
    Position { asset: asset as i64, quantity }
}

pub fn account(kind: Kind, required: i64, posted: i64, positions: Vec<Position>) -> Account {
    Account { kind, required, posted, positions }
}

pub fn kind(random: &mut Random) -> Kind {
    random.choose(&[Kind::Own, Kind::Client])
}

/// How large a day is.
pub struct Shape {
    pub scenarios: usize,
    pub assets: usize,
    pub accounts: usize,
    pub positions: usize,
    pub change: i64,
    pub quantity: i64,
    pub margin: i64,
}

/// A day of this shape; accounts have up to the given number of positions.
pub fn shaped(random: &mut Random, shape: &Shape) -> Day {
    let mut changes = vec![vec![0; shape.scenarios]; shape.assets];
    for change in changes.iter_mut().flatten() {
        *change = random.between(-shape.change, shape.change);
    }
    let mut day = Day {
        member: random.between(1, 64),
        segment: random.between(1, 5),
        day: random.between(1, 1_000_000),
        scenarios: shape.scenarios,
        changes,
        accounts: Vec::new(),
    };
    for _ in 0..shape.accounts {
        let count = random.below(shape.positions + 1);
        let positions = (0..count).map(|_| held(random, shape)).collect();
        let (required, posted) = (random.between(0, shape.margin), random.between(0, shape.margin));
        day.accounts.push(account(kind(random), required, posted, positions));
    }
    day
}

fn held(random: &mut Random, shape: &Shape) -> Position {
    let quantity = random.between(1, shape.quantity);
    let sign = random.choose(&[1, -1]);
    position(random.below(shape.assets), sign * quantity)
}

/// A day small enough to be read by eye.
pub fn small(random: &mut Random) -> Day {
    let shape = Shape {
        scenarios: 1 + random.below(4),
        assets: 1 + random.below(4),
        accounts: random.below(5),
        positions: random.below(5),
        change: random.choose(&[1, 10, 1_000, 1_000_000]),
        quantity: random.choose(&[1, 10, 5_000]),
        margin: random.choose(&[0, 10, 1_000, 1_000_000]),
    };
    shaped(random, &shape)
}

/// A day with two scenarios, two assets, two accounts and three positions: every kind of line, most twice.
pub fn plain(random: &mut Random) -> Day {
    let shape =
        Shape { scenarios: 2, assets: 2, accounts: 0, positions: 0, change: 2_000, quantity: 1, margin: 0 };
    let mut day = shaped(random, &shape);
    let mut some = |asset| position(asset, random.choose(&[1, -1]) * random.between(1, 5_000));
    let (first, second) = (vec![some(0)], vec![some(0), some(1)]);
    let mut margin = || random.between(0, 300_000);
    day.accounts =
        vec![account(Kind::Own, margin(), margin(), first), account(Kind::Client, margin(), margin(), second)];
    day
}

/// A day of middling size, some counts at their limit.
pub fn medium(random: &mut Random) -> Day {
    let shape = Shape {
        scenarios: random.choose(&[1, 2, 7, 63, 64]),
        assets: random.choose(&[1, 2, 9, 63, 64]),
        accounts: random.below(12),
        positions: random.choose(&[1, 5, 63, 64]),
        change: random.choose(&[100, 20_000]),
        quantity: random.choose(&[10, 20_000]),
        margin: random.choose(&[0, 100_000, 10_000_000_000]),
    };
    shaped(random, &shape)
}

/// 64 scenarios, 64 assets, changes up to the limit.
pub fn wide(random: &mut Random) -> Day {
    let shape = Shape {
        scenarios: 64,
        assets: 64,
        accounts: 1 + random.below(8),
        positions: 64,
        change: *CHANGES.end(),
        quantity: random.choose(&[1_000, 10_000]),
        margin: random.choose(&[0, 1_000_000, 1_000_000_000]),
    };
    shaped(random, &shape)
}

/// Changes and quantities at their limits only. Each large position is taken back by a contrary one, but for the
/// last, so that sums are large on the way and some columns stay good.
pub fn hedged(random: &mut Random) -> Day {
    let shape = Shape {
        scenarios: random.choose(&[1, 3, 64]),
        assets: random.choose(&[1, 5, 64]),
        accounts: 0,
        positions: 0,
        change: *CHANGES.end(),
        quantity: 1,
        margin: 0,
    };
    let mut day = shaped(random, &shape);
    for change in day.changes.iter_mut().flatten() {
        *change = random.choose(&[*CHANGES.start(), *CHANGES.end(), 0]);
    }
    for _ in 0..1 + random.below(3) {
        let mut positions = Vec::new();
        for _ in 0..random.choose(&[1, 15, 31]) {
            let asset = random.below(shape.assets);
            positions.push(position(asset, *QUANTITIES.end()));
            positions.push(position(asset, *QUANTITIES.start()));
        }
        random.shuffle(&mut positions);
        let rest = random.choose(&[1, 1_000, 300_000, *QUANTITIES.end()]) * random.choose(&[1, -1]);
        positions.push(position(random.below(shape.assets), rest));
        let mut margin = || random.choose(&[0, 1, MARGIN - 1, MARGIN]);
        let (required, posted) = (margin(), margin());
        day.accounts.push(account(kind(random), required, posted, positions));
    }
    day
}

/// A day whose largest column is the limit of a column and `beyond`: with a positive number, its last account that
/// loses is one too many.
pub fn at_the_column(random: &mut Random, beyond: i64) -> Day {
    let scenarios = random.choose(&[1, 2, 5, 64]);
    let full = random.below(scenarios);
    at_column(random, scenarios, full, beyond)
}

/// The same, in the column of scenario `full`.
pub fn at_column(random: &mut Random, scenarios: usize, full: usize, beyond: i64) -> Day {
    // A unit of asset 0 loses a million in that scenario, one of asset 1 loses one; asset 2 gains everywhere.
    let mut changes = vec![vec![0; scenarios]; 3];
    changes[0].fill_with(|| random.between(*CHANGES.start(), *CHANGES.end()));
    changes[2].fill_with(|| random.between(0, *CHANGES.end()));
    changes[0][full] = *CHANGES.start();
    changes[1][full] = -1;
    let mut left = COLUMN as i64 + beyond;
    let count = 1 + random.below(4);
    let mut accounts = Vec::new();
    for i in 0..count {
        let excess = if i + 1 == count { left } else { random.between(0, left / 2) };
        left -= excess;
        accounts.push(losing(random, excess));
        if random.once_in(3) {
            accounts.push(account(Kind::Own, 0, 0, vec![position(2, random.between(1, *QUANTITIES.end()))]));
        }
    }
    let mut day = small(random);
    (day.scenarios, day.changes, day.accounts) = (scenarios, changes, accounts);
    day
}

/// An account that loses this much beyond its offset, where asset 0 loses a million and asset 1 loses one.
fn losing(random: &mut Random, excess: i64) -> Account {
    let kind = kind(random);
    let mut margin = || match random.below(4) {
        0 => 0,
        1 => MARGIN,
        _ => random.between(0, MARGIN),
    };
    let (required, posted) = (margin(), margin());
    let offset = if kind == Kind::Own { required } else { required.min(posted) };
    let loss = excess + offset;
    let (millions, ones) = (loss / 1_000_000, loss % 1_000_000);
    let parts = [position(0, millions), position(1, ones)];
    account(kind, required, posted, parts.into_iter().filter(|p| p.quantity != 0).collect())
}

/// A good day of exactly this many bytes, at least 1,000.
pub fn sized(random: &mut Random, bytes: usize) -> Day {
    let day = small(random);
    grown(random, day, bytes)
}

/// The day with accounts more, so that it has exactly this many bytes, at least 1,000.
pub fn grown(random: &mut Random, mut day: Day, bytes: usize) -> Day {
    let mut length = day.bytes().len();
    while length + 500 < bytes {
        let shape = Shape {
            scenarios: day.scenarios,
            assets: day.changes.len(),
            accounts: 1,
            positions: 20,
            change: 0,
            quantity: 50,
            margin: random.choose(&[9, 99_999, MARGIN]),
        };
        let more = shaped(random, &shape).accounts;
        length += more.iter().flat_map(account_lines).map(|line| line.len() + 1).sum::<usize>();
        day.accounts.extend(more);
    }
    // `acc=own,` and `,` and byte 10 are 10 bytes; each margin adds 1 to 12 digits.
    let gap = bytes - day.bytes().len();
    let count = gap.div_ceil(34);
    day.accounts.extend((0..count).map(|_| account(Kind::Own, 0, 0, Vec::new())));
    let mut short = bytes - day.bytes().len();
    for margins in day.accounts.iter_mut().rev().take(count) {
        for margin in [&mut margins.required, &mut margins.posted] {
            let digits = short.min(11) as u32;
            *margin = if digits == 0 { 0 } else { 10_i64.pow(digits) };
            short -= digits as usize;
        }
    }
    day
}

#[cfg(test)]
mod tests {
    use super::*;
    use crate::dayfile::read;

    #[test]
    fn days_have_their_size() {
        let mut random = Random::new(5);
        for bytes in [1_000, 1_001, 5_003, 59_999, 60_000, 60_001, 70_000] {
            assert_eq!(sized(&mut random, bytes).bytes().len(), bytes);
        }
        for seed in 0..20 {
            let day = sized(&mut Random::new(seed), 60_000).bytes();
            assert_eq!(day.len(), 60_000);
            assert!(read(&day).is_ok());
        }
    }

    #[test]
    fn columns_reach_the_limit() {
        for seed in 0..50 {
            let risk = |beyond| read(&at_the_column(&mut Random::new(seed), beyond).bytes()).map(|f| f.risk);
            assert_eq!(risk(0), Ok(1_000_000_000));
            assert_eq!(risk(-1_000), Ok(999_999_999));
            assert_eq!(risk(1).map_err(|fault| fault.refusal.0), Err(8));
        }
    }

    #[test]
    fn days_are_good() {
        for seed in 0..200 {
            let random = &mut Random::new(seed);
            for day in [small(random), plain(random), medium(random)] {
                assert!(read(&day.bytes()).is_ok(), "{:?}", String::from_utf8(day.bytes()));
            }
        }
    }
}
