//! The fund book and its calls, written from docs/RULES.md and docs/REFUSALS.md. Amounts are in mils.

use crate::dayfile::Figure;
use crate::rules::{Refusal, MEMBERS, SEGMENTS};

pub const MEMBER_COUNT: usize = 64;
pub const SEGMENT_COUNT: usize = 5;
pub const MINIMUM: u64 = 1_000_000;
pub const AMOUNT: u64 = 1_000_000_000;
pub const CEILING: u64 = 2_000_000_000;
pub const MEAN_DAYS: u64 = 66;

/// Does this class contribute to the fund?
pub fn shares(class: u64) -> bool {
    class == 1 || class == 2
}

/// One member's place in one segment; zeros throughout where it is empty.
#[derive(Clone, Copy, Debug, Default, PartialEq, Eq)]
pub struct Seat {
    pub class: u64,
    pub minimum: u64,
    pub held: u64,
    pub asked: u64,
    pub sum: u64,
    pub days: u64,
    pub last_day: u64,
    pub last_figure: u64,
}

impl Seat {
    pub fn is_empty(&self) -> bool {
        self.class == 0
    }
}

/// A member and a segment, both in range; counted from 0.
type Place = (usize, usize);

/// The seats, by member and segment. A book made here always forms a book, so 10 is not met.
#[derive(Clone, Debug, PartialEq, Eq)]
pub struct Book {
    seats: [[Seat; SEGMENT_COUNT]; MEMBER_COUNT],
}

impl Book {
    pub fn made() -> Self {
        Book { seats: [[Seat::default(); SEGMENT_COUNT]; MEMBER_COUNT] }
    }

    /// The seat of a member and a segment that are in range.
    pub fn seat(&self, member: u64, segment: u64) -> &Seat {
        &self.seats[member as usize - 1][segment as usize - 1]
    }

    /// What the seats of a segment hold together.
    pub fn held_in(&self, segment: u64) -> u64 {
        self.seats.iter().map(|own| own[segment as usize - 1].held).sum()
    }

    fn place(member: u64, segment: u64) -> Result<Place, Refusal> {
        refuse(1, !MEMBERS.contains(&(member as i64)))?;
        refuse(2, !SEGMENTS.contains(&(segment as i64)))?;
        Ok((member as usize - 1, segment as usize - 1))
    }

    fn at(&mut self, (member, segment): Place) -> &mut Seat {
        &mut self.seats[member][segment]
    }

    /// The seat at a place where one is.
    fn taken(&self, (member, segment): Place) -> Result<Seat, Refusal> {
        let seat = self.seats[member][segment];
        refuse(16, seat.is_empty())?;
        Ok(seat)
    }

    pub fn admit(
        &mut self,
        member: u64,
        segment: u64,
        class: u64,
        minimum: u64,
        paid: u64,
    ) -> Result<(), Refusal> {
        let place = Self::place(member, segment)?;
        refuse(11, !self.at(place).is_empty())?;
        let others = &self.seats[place.0];
        let unlike = others.iter().any(|other| !other.is_empty() && other.class != class);
        refuse(12, !(1..=4).contains(&class) || unlike)?;
        if shares(class) {
            refuse(13, !(1..=MINIMUM).contains(&minimum))?;
            refuse(14, paid < minimum || paid > AMOUNT)?;
        } else {
            refuse(13, minimum != 0)?;
            refuse(14, paid != 0)?;
        }
        refuse(15, self.held_in(segment) + paid > CEILING)?;
        *self.at(place) = Seat { class, minimum, held: paid, asked: minimum, ..Seat::default() };
        Ok(())
    }

    /// Books the figure of a day file: member, segment and day are in range.
    pub fn book(&mut self, figure: &Figure) -> Result<(), Refusal> {
        let place = Self::place(figure.member as u64, figure.segment as u64)?;
        let seat = self.taken(place)?;
        let (day, risk) = (figure.day as u64, figure.risk as u64);
        refuse(17, day <= seat.last_day)?;
        refuse(18, seat.days >= MEAN_DAYS)?;
        *self.at(place) =
            Seat { sum: seat.sum + risk, days: seat.days + 1, last_day: day, last_figure: risk, ..seat };
        Ok(())
    }

    pub fn pay(&mut self, member: u64, segment: u64, amount: u64) -> Result<(), Refusal> {
        let place = Self::place(member, segment)?;
        let seat = self.taken(place)?;
        refuse(19, !shares(seat.class))?;
        refuse(14, !(1..=AMOUNT).contains(&amount))?;
        refuse(15, self.held_in(segment) + amount > CEILING)?;
        self.at(place).held += amount;
        Ok(())
    }

    pub fn withdraw(&mut self, member: u64, segment: u64, amount: u64) -> Result<(), Refusal> {
        let place = Self::place(member, segment)?;
        let seat = self.taken(place)?;
        refuse(14, !(1..=AMOUNT).contains(&amount))?;
        refuse(24, seat.held < seat.asked + amount)?;
        self.at(place).held -= amount;
        Ok(())
    }

    /// Empties the seat and answers what it held.
    pub fn depart(&mut self, member: u64, segment: u64) -> Result<u64, Refusal> {
        let place = Self::place(member, segment)?;
        let seat = self.taken(place)?;
        refuse(20, seat.held < seat.asked)?;
        *self.at(place) = Seat::default();
        Ok(seat.held)
    }

    /// Is everything as the rules have it for tables that form a book?
    #[cfg(test)]
    pub fn forms(&self) -> bool {
        let good = |seat: &Seat| match seat.class {
            0 => *seat == Seat::default(),
            1 | 2 => (1..=MINIMUM).contains(&seat.minimum) && (seat.minimum..=AMOUNT).contains(&seat.asked),
            3 | 4 => seat.minimum == 0 && seat.asked == 0 && seat.held == 0,
            _ => false,
        };
        let booked = |seat: &Seat| {
            seat.days <= MEAN_DAYS
                && seat.sum <= seat.days * AMOUNT
                && seat.last_figure <= AMOUNT
                && seat.last_day <= 1_000_000
        };
        let alike = |own: &[Seat; SEGMENT_COUNT]| {
            let mut classes: Vec<u64> = own.iter().map(|seat| seat.class).filter(|class| *class != 0).collect();
            classes.dedup();
            classes.len() <= 1
        };
        self.seats.iter().all(alike)
            && self.seats.iter().flatten().all(|seat| good(seat) && booked(seat))
            && (1..=SEGMENT_COUNT as u64).all(|segment| self.held_in(segment) <= CEILING)
    }
}

fn refuse(number: u8, holds: bool) -> Result<(), Refusal> {
    match holds {
        true => Err(Refusal(number)),
        false => Ok(()),
    }
}

#[cfg(test)]
mod tests {
    use super::*;

    fn figure(member: i64, segment: i64, day: i64, risk: i128) -> Figure {
        Figure { member, segment, day, risk }
    }

    #[test]
    fn admissions_in_order() {
        let mut book = Book::made();
        let mut admit = |m, s, c, min, paid| book.admit(m, s, c, min, paid).map_err(|refusal| refusal.0);
        assert_eq!(admit(0, 0, 0, 0, 0), Err(1));
        assert_eq!(admit(65, 1, 1, 1, 1), Err(1));
        assert_eq!(admit(4_294_967_297, 1, 1, 1, 1), Err(1));
        assert_eq!(admit(1, 0, 0, 0, 0), Err(2));
        assert_eq!(admit(1, 6, 1, 1, 1), Err(2));
        assert_eq!(admit(1, 1, 0, 0, 0), Err(12));
        assert_eq!(admit(1, 1, 5, 0, 0), Err(12));
        assert_eq!(admit(1, 1, 257, 1, 1), Err(12));
        assert_eq!(admit(1, 1, 1, 0, 0), Err(13));
        assert_eq!(admit(1, 1, 1, 1_000_001, 0), Err(13));
        assert_eq!(admit(1, 1, 3, 1, 1), Err(13));
        assert_eq!(admit(1, 1, 3, 0, 1), Err(14));
        assert_eq!(admit(1, 1, 1, 2, 1), Err(14));
        assert_eq!(admit(1, 1, 1, 2, 1_000_000_001), Err(14));
        assert_eq!(admit(1, 1, 1, 2, 1_000_000_000), Ok(()));
        assert_eq!(admit(1, 1, 0, 0, 0), Err(11));
        assert_eq!(admit(1, 2, 2, 0, 0), Err(12));
        assert_eq!(admit(1, 2, 1, 1_000_000, 1_000_000), Ok(()));
        assert_eq!(admit(2, 1, 2, 1_000_000, 999_999_999), Ok(()));
        assert_eq!(admit(64, 1, 2, 2, 2), Err(15));
        assert_eq!(admit(64, 1, 2, 1, 1), Ok(()));
        assert_eq!(admit(3, 1, 2, 1, 1), Err(15));
        assert_eq!(admit(3, 1, 4, 0, 0), Ok(()));
        assert!(book.forms());
        assert_eq!(book.held_in(1), CEILING);
    }

    #[test]
    fn bookings_in_order() {
        let mut book = Book::made();
        assert_eq!(book.book(&figure(1, 1, 1, 0)), Err(Refusal(16)));
        book.admit(1, 1, 4, 0, 0).unwrap();
        for day in 1..=66 {
            assert_eq!(book.book(&figure(1, 1, day, 1_000_000_000)), Ok(()));
            assert_eq!(book.book(&figure(1, 1, day, 0)), Err(Refusal(17)));
        }
        assert_eq!(book.book(&figure(1, 1, 67, 0)), Err(Refusal(18)));
        let seat = *book.seat(1, 1);
        assert_eq!((seat.sum, seat.days), (66_000_000_000, 66));
        assert_eq!((seat.last_day, seat.last_figure), (66, 1_000_000_000));
        assert_eq!(book.depart(1, 1), Ok(0));
        assert_eq!(book, Book::made());
    }

    #[test]
    fn payments_and_withdrawals() {
        let mut book = Book::made();
        assert_eq!(book.pay(1, 1, 0), Err(Refusal(16)));
        book.admit(1, 1, 2, 100, 150).unwrap();
        book.admit(2, 1, 3, 0, 0).unwrap();
        assert_eq!(book.pay(2, 1, 0), Err(Refusal(19)));
        assert_eq!(book.pay(1, 1, 0), Err(Refusal(14)));
        assert_eq!(book.pay(1, 1, 1_000_000_001), Err(Refusal(14)));
        assert_eq!(book.pay(1, 1, 1_000_000_000), Ok(()));
        assert_eq!(book.pay(1, 1, 999_999_851), Err(Refusal(15)));
        assert_eq!(book.pay(1, 1, 999_999_850), Ok(()));
        assert_eq!(book.withdraw(1, 1, 1_999_999_900), Err(Refusal(14)));
        assert_eq!(book.withdraw(1, 1, 1_000_000_000), Ok(()));
        assert_eq!(book.withdraw(1, 1, 999_999_901), Err(Refusal(24)));
        assert_eq!(book.withdraw(1, 1, 999_999_900), Ok(()));
        assert_eq!(book.withdraw(1, 1, 1), Err(Refusal(24)));
        assert_eq!(book.withdraw(2, 1, 0), Err(Refusal(14)));
        assert_eq!(book.withdraw(2, 1, 1), Err(Refusal(24)));
        assert_eq!(book.depart(1, 1), Ok(100));
        assert_eq!(book.depart(1, 1), Err(Refusal(16)));
        assert_eq!(book.depart(65, 6), Err(Refusal(1)));
        assert_eq!(book.depart(64, 6), Err(Refusal(2)));
    }
}
