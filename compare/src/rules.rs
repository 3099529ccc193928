//! From accounts to a figure, written from docs/RULES.md.

use std::ops::RangeInclusive;

pub const MEMBERS: RangeInclusive<i64> = 1..=64;
pub const SEGMENTS: RangeInclusive<i64> = 1..=5;
pub const DAYS: RangeInclusive<i64> = 1..=1_000_000;
pub const SCENARIOS: RangeInclusive<i64> = 1..=64;
pub const ASSETS: RangeInclusive<i64> = 1..=64;
pub const CHANGES: RangeInclusive<i64> = -1_000_000..=1_000_000;
pub const POSITIONS: usize = 64;
pub const QUANTITIES: RangeInclusive<i64> = -10_000_000..=10_000_000;
pub const MARGIN: i64 = 1_000_000_000_000;
pub const COLUMN: i128 = 1_000_000_000_000;
const PESOS_IN_A_MIL: i128 = 1_000;

/// A refusal, by its number in docs/REFUSALS.md.
#[derive(Clone, Copy, Debug, PartialEq, Eq, PartialOrd, Ord)]
pub struct Refusal(pub u8);

#[derive(Clone, Debug)]
pub struct Heading {
    pub member: i64,
    pub segment: i64,
    pub day: i64,
    pub scenarios: i64,
}

impl Heading {
    /// The first of the four numbers that is out of range.
    pub fn check(&self) -> Result<(), Refusal> {
        let wanted = [
            (1, MEMBERS, self.member),
            (2, SEGMENTS, self.segment),
            (3, DAYS, self.day),
            (4, SCENARIOS, self.scenarios),
        ];
        match wanted.iter().find(|(_, range, given)| !range.contains(given)) {
            Some((number, ..)) => Err(Refusal(*number)),
            None => Ok(()),
        }
    }
}

#[derive(Clone, Copy, Debug, PartialEq, Eq)]
pub enum Kind {
    Own,
    Client,
}

#[derive(Clone, Debug)]
pub struct Position {
    pub asset: i64,
    pub quantity: i64,
}

#[derive(Clone, Debug)]
pub struct Account {
    pub kind: Kind,
    pub required: i64,
    pub posted: i64,
    pub positions: Vec<Position>,
}

impl Account {
    fn offset(&self) -> i64 {
        match self.kind {
            Kind::Own => self.required,
            Kind::Client => self.required.min(self.posted),
        }
    }
}

/// Price changes: a row for each asset, a place in it for each scenario.
pub type Sheet = Vec<Vec<i64>>;

/// A tally over a good sheet.
pub struct Tally<'s> {
    sheet: &'s Sheet,
    columns: Vec<i128>,
}

impl<'s> Tally<'s> {
    pub fn open(scenarios: usize, sheet: &'s Sheet) -> Self {
        Tally { sheet, columns: vec![0; scenarios] }
    }

    /// Adds an account, or refuses and leaves the columns alone. The sheet is good, so 5 is not met.
    pub fn add(&mut self, account: &Account) -> Result<(), Refusal> {
        let assets = self.sheet.len() as i64;
        let known = |p: &Position| (0..assets).contains(&p.asset);
        let sized = |p: &Position| p.quantity != 0 && QUANTITIES.contains(&p.quantity);
        if account.positions.len() > POSITIONS || !account.positions.iter().all(|p| known(p) && sized(p)) {
            return Err(Refusal(6));
        }
        if account.required.max(account.posted) > MARGIN {
            return Err(Refusal(7));
        }
        let raised: Vec<i128> =
            self.columns.iter().enumerate().map(|(s, column)| column + self.excess(account, s)).collect();
        if raised.iter().any(|column| *column > COLUMN) {
            return Err(Refusal(8));
        }
        self.columns = raised;
        Ok(())
    }

    fn excess(&self, account: &Account, scenario: usize) -> i128 {
        let worth: i128 = account
            .positions
            .iter()
            .map(|p| i128::from(p.quantity) * i128::from(self.sheet[p.asset as usize][scenario]))
            .sum();
        (-worth - i128::from(account.offset())).max(0)
    }

    /// The figure, in mils.
    pub fn strike(self) -> i128 {
        let largest = self.columns.into_iter().max().unwrap_or(0);
        (largest + PESOS_IN_A_MIL - 1) / PESOS_IN_A_MIL
    }
}

#[cfg(test)]
mod tests {
    use super::*;

    fn account(kind: Kind, required: i64, posted: i64, positions: &[(i64, i64)]) -> Account {
        let positions = positions.iter().map(|&(asset, quantity)| Position { asset, quantity }).collect();
        Account { kind, required, posted, positions }
    }

    #[test]
    fn the_worked_example() {
        let sheet = vec![vec![-500, 300], vec![1000, -2000]];
        let mut tally = Tally::open(2, &sheet);
        assert_eq!(tally.add(&account(Kind::Own, 1_000_000, 0, &[(0, 4000)])), Ok(()));
        assert_eq!(tally.columns, [1_000_000, 0]);
        assert_eq!(tally.add(&account(Kind::Client, 900_000, 250_000, &[(0, -1000), (1, 600)])), Ok(()));
        assert_eq!(tally.columns, [1_000_000, 1_250_000]);
        assert_eq!(tally.strike(), 1250);
    }

    #[test]
    fn figures_are_rounded_up() {
        for (loss, figure) in [(0, 0), (1, 1), (999, 1), (1000, 1), (1001, 2), (1999, 2), (2000, 2)] {
            let sheet = vec![vec![-loss]];
            let mut tally = Tally::open(1, &sheet);
            assert_eq!(tally.add(&account(Kind::Own, 0, 0, &[(0, 1)])), Ok(()));
            assert_eq!(tally.strike(), figure);
        }
    }

    #[test]
    fn a_refused_account_changes_nothing() {
        let sheet = vec![vec![-1_000_000]];
        let mut tally = Tally::open(1, &sheet);
        assert_eq!(tally.add(&account(Kind::Own, 0, 0, &[(0, 1_000_000)])), Ok(()));
        assert_eq!(tally.add(&account(Kind::Own, 0, 0, &[(0, 1)])), Err(Refusal(8)));
        assert_eq!(tally.add(&account(Kind::Own, 1_000_000_000_001, 0, &[(0, 1)])), Err(Refusal(7)));
        assert_eq!(tally.add(&account(Kind::Own, 1_000_000_000_001, 0, &[(1, 1)])), Err(Refusal(6)));
        assert_eq!(tally.columns, [1_000_000_000_000]);
        assert_eq!(tally.add(&account(Kind::Own, 1_000_000, 0, &[(0, 1)])), Ok(()));
        assert_eq!(tally.strike(), 1_000_000_000);
    }

    #[test]
    fn an_empty_tally_strikes_nothing() {
        let sheet = vec![vec![0; 64]];
        assert_eq!(Tally::open(64, &sheet).strike(), 0);
    }
}
