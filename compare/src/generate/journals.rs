//! The journals of a seed: calls at the limits, refused ones, day files good and damaged, and lines that are no entry.
//! A player goes along, so that each entry can be made for the book as it then is.

use super::damage::{self, Damage, NO_NUMBERS};
use super::days::{self, Day};
use crate::book::{shares, Book, Seat, AMOUNT, CEILING, MEAN_DAYS, MINIMUM};
use crate::journal::{is_open, Player};
use crate::random::Random;
use crate::rules::MARGIN;

/// A number of 13 digits, the largest that is a number.
const LARGEST: u64 = 9_999_999_999_999;
/// Added to a number, this changes nothing where it is kept in 32 bits.
const ROUND: u64 = 1 << 32;

/// Journals of a few bytes; they come first.
const TINY: [&[u8]; 20] = [
    b"",
    b"\n",
    b"\n\n\n",
    b"form=",
    b"form=1",
    b"form=\n",
    b"form=1\n",
    b"form=1\r\n",
    b" form=1\n",
    b"form=1\nform=1\n",
    b"form=1\nform=1",
    b"form=1\nend=0\nend=0\n",
    b"form=1\nend=0",
    b"end=0\nform=1\nend=\n",
    b"depart=1,1\n",
    b"depart=1,1",
    b"depart=1,1\r\n",
    b"admit=1,1,1,1,1\nadmit=1,1,1,1,1",
    b"form=1\nadmit=1,1,1,1,1\n",
    b"\xef\xbb\xbfadmit=1,1,1,1,1\n",
];

/// Names that are no entry, with fields as they might have.
const NO_ENTRIES: [&str; 40] = [
    "strike=1,one",
    "strike=3,two",
    "strike=1",
    "strike=",
    "loss=1,1,5",
    "pledge=1,ind,5",
    "release=1,ext,5",
    "stress=1",
    "treasury=1,1",
    "individual=1,2,3,4,5,6,7,8",
    "close=5,-1,2",
    "show=1,1",
    "pledged=1",
    "missing=5",
    "book=1,1,1,1",
    "book=1,1",
    "unread=1",
    "refused=31,1,L",
    "make=",
    "member=1",
    "segment=1",
    "acc=own,1,1",
    "pos=0,1",
    "end=0",
    "end=",
    "end",
    "form",
    "form 1",
    "Form=1",
    "admit",
    "admits=1,1,1,1,1",
    "admi=1,1,1,1,1",
    "dadmit=1,1,1,1,1",
    "deposit=1,1,1",
    "pay,1,1,1",
    "pay=pay=1,1,1",
    "=1,1,1",
    "=",
    ",",
    "1,1,1",
];

/// The n-th journal of a seed, counted from 0.
pub fn nth(seed: u64, n: usize) -> Vec<u8> {
    if let Some(tiny) = TINY.get(n) {
        return tiny.to_vec();
    }
    let mut maker = Maker::new(Random::nth(seed, n as u64));
    maker.make(n);
    maker.bytes
}

/// A seat's member and segment, in range.
type Place = (u64, u64);

struct Maker {
    random: Random,
    player: Player,
    bytes: Vec<u8>,
    entries: usize,
    /// The members that have most of the entries.
    members: Vec<u64>,
}

impl Maker {
    fn new(mut random: Random) -> Self {
        let mut members: Vec<u64> = (1..=64).collect();
        random.shuffle(&mut members);
        members.truncate(3 + random.below(6));
        members.push(random.choose(&[1, 64]));
        Maker { random, player: Player::new(), bytes: Vec::new(), entries: 0, members }
    }

    fn book(&self) -> &Book {
        &self.player.book
    }

    fn make(&mut self, n: usize) {
        let wanted = self.random.between(60, 200) as usize;
        for _ in 0..4 + self.random.below(6) {
            self.admit(0);
        }
        match n % 6 {
            0 => self.full_mean(),
            1 | 2 => self.ceiling(),
            _ => {}
        }
        while self.entries < wanted {
            self.some(n);
        }
        self.last();
    }

    /// An entry or a few of a random kind.
    fn some(&mut self, n: usize) {
        let spoils = self.random.choose(&[0, 0, 0, 1, 1, 2, 2, 3]);
        // Some journals have many of one kind.
        let kind = if n % 6 >= 3 && self.random.once_in(3) { n / 6 % 30 } else { self.random.below(30) };
        match kind {
            0..=4 => self.admit(spoils),
            5..=8 => self.pay(spoils),
            9..=12 => self.withdraw(spoils),
            13..=14 => self.depart(spoils),
            15..=19 => self.booking(),
            20..=22 => self.damaged_day(),
            23 => self.cut_day(),
            24..=27 => self.unread(),
            28 if self.random.once_in(4) => self.ceiling(),
            29 if self.random.once_in(8) => self.long(),
            _ => {
                let call = self.any_line();
                self.line(call);
            }
        }
    }

    /// Plays these bytes and puts them into the journal.
    fn put(&mut self, bytes: &[u8]) {
        self.player.play(bytes);
        self.bytes.extend_from_slice(bytes);
        self.entries += 1;
    }

    fn line(&mut self, line: impl Into<Vec<u8>>) {
        let mut line = line.into();
        line.push(10);
        self.put(&line);
    }

    fn call(&mut self, name: &str, fields: &[u64]) {
        self.line(call(name, fields));
    }

    fn some_member(&mut self) -> u64 {
        match self.random.once_in(8) {
            true => self.random.choose(&[1, 2, 32, 63, 64]),
            false => self.random.choose(&self.members),
        }
    }

    fn some_place(&mut self) -> Place {
        (self.some_member(), self.random.between(1, 5) as u64)
    }

    /// A place of this kind, if one of the members has it.
    fn place(&mut self, wanted: impl Fn(&Seat) -> bool) -> Option<Place> {
        let mut places: Vec<Place> =
            self.members.iter().flat_map(|member| (1..=5).map(move |segment| (*member, segment))).collect();
        places.retain(|(member, segment)| wanted(self.book().seat(*member, *segment)));
        if places.is_empty() {
            return None;
        }
        Some(self.random.choose(&places))
    }

    /// What the segment can still take; 0 for a segment that is out of range.
    fn room(&self, segment: u64) -> u64 {
        match segment {
            1..=5 => CEILING - self.book().held_in(segment),
            _ => 0,
        }
    }

    /// The class that the member has, if it has a seat.
    fn class_of(&self, member: u64) -> Option<u64> {
        (1..=5).map(|segment| self.book().seat(member, segment).class).find(|class| *class != 0)
    }

    fn bad_member(&mut self, member: u64) -> u64 {
        self.random.choose(&[
            0,
            65,
            66,
            128,
            256,
            member + 256,
            member + 65_536,
            ROUND + 1,
            ROUND + member,
            LARGEST,
        ])
    }

    fn bad_segment(&mut self, segment: u64) -> u64 {
        self.random.choose(&[0, 6, 7, segment + 8, segment + 256, segment + 65_536, ROUND + segment, LARGEST])
    }

    fn bad_amount(&mut self, amount: u64) -> u64 {
        self.random.choose(&[
            0,
            AMOUNT + 1,
            AMOUNT + 2,
            2 * AMOUNT,
            2 * AMOUNT + 1,
            ROUND,
            ROUND + amount,
            LARGEST,
        ])
    }

    /// An admission that is good where it can be, then spoiled so many times.
    fn admit(&mut self, spoils: usize) {
        let (mut member, mut segment) = self.place(Seat::is_empty).unwrap_or((64, 5));
        let drawn = self.random.choose(&[1, 1, 1, 2, 2, 2, 3, 4]);
        let mut class = self.class_of(member).unwrap_or(drawn);
        let (mut minimum, mut paid) = (0, 0);
        if shares(class) {
            let some = self.random.between(1, MINIMUM as i64) as u64;
            minimum = self.random.choose(&[1, 2, 1_000, MINIMUM - 1, MINIMUM, some]);
            let most = self.room(segment).clamp(minimum, AMOUNT);
            let some = self.random.between(minimum as i64, most as i64) as u64;
            let little = (minimum + some % 1_000_000).min(most);
            paid = self.random.choose(&[minimum, minimum, (minimum + 1).min(most), little, little, some, most]);
        }
        for _ in 0..spoils {
            match self.random.below(8) {
                0 => member = self.bad_member(member),
                1 => segment = self.bad_segment(segment),
                2 => (member, segment) = self.place(|seat| !seat.is_empty()).unwrap_or((member, segment)),
                3 => class = self.random.choose(&[0, 5, 6, class + 4, class + 256, class + 65_536, ROUND + class]),
                4 => class = self.random.choose(&[1, 2, 3, 4]),
                5 if shares(class) => {
                    minimum = self.random.choose(&[0, MINIMUM + 1, ROUND, ROUND + minimum, LARGEST]);
                }
                5 => minimum = self.random.choose(&[1, MINIMUM, MINIMUM + 1, ROUND]),
                6 if shares(class) && self.random.once_in(2) => paid = minimum.saturating_sub(1),
                6 if shares(class) => paid = self.bad_amount(paid),
                6 => paid = self.random.choose(&[1, AMOUNT, AMOUNT + 1, ROUND]),
                _ => {
                    let room = self.room(segment);
                    paid = self.random.choose(&[room + 1, (room + 1).max(minimum), AMOUNT.max(room + 1)]);
                }
            }
        }
        self.call("admit", &[member, segment, class, minimum, paid]);
    }

    fn pay(&mut self, spoils: usize) {
        let (mut member, mut segment) = match self.place(|seat| shares(seat.class)) {
            Some(place) => place,
            None => self.some_place(),
        };
        let most = self.room(segment).clamp(1, AMOUNT);
        let some = self.random.between(1, most as i64) as u64;
        let mut amount = self.random.choose(&[1, 2, some % 1_000 + 1, some % 1_000_000 + 1, some, most]);
        for _ in 0..spoils {
            match self.random.below(6) {
                0 => member = self.bad_member(member),
                1 => segment = self.bad_segment(segment),
                2 => (member, segment) = self.place(Seat::is_empty).unwrap_or((member, segment)),
                3 => (member, segment) = self.place(|seat| seat.class > 2).unwrap_or((member, segment)),
                4 => amount = self.bad_amount(amount),
                _ => amount = self.room(segment) + 1,
            }
        }
        self.call("pay", &[member, segment, amount]);
    }

    fn withdraw(&mut self, spoils: usize) {
        let (mut member, mut segment) = match self.place(|seat| seat.held > seat.asked) {
            Some(place) => place,
            None => self.some_place(),
        };
        let seat = *self.book().seat(member, segment);
        let free = seat.held - seat.asked;
        let some = self.random.between(1, free.max(1) as i64) as u64;
        let mut amount = self.random.choose(&[1, some, some, free.clamp(1, AMOUNT), AMOUNT]);
        for _ in 0..spoils {
            match self.random.below(6) {
                0 => member = self.bad_member(member),
                1 => segment = self.bad_segment(segment),
                2 => (member, segment) = self.place(Seat::is_empty).unwrap_or((member, segment)),
                3 => (member, segment) = self.place(|seat| seat.class > 2).unwrap_or((member, segment)),
                4 => amount = self.bad_amount(amount),
                _ => amount = self.random.choose(&[free + 1, seat.held, seat.held + 1, free + 1]),
            }
        }
        self.call("withdraw", &[member, segment, amount]);
    }

    fn depart(&mut self, spoils: usize) {
        let (mut member, mut segment) = match self.place(|seat| !seat.is_empty()) {
            Some(place) => place,
            None => self.some_place(),
        };
        for _ in 0..spoils {
            match self.random.below(3) {
                0 => member = self.bad_member(member),
                1 => segment = self.bad_segment(segment),
                _ => (member, segment) = self.place(Seat::is_empty).unwrap_or((member, segment)),
            }
        }
        self.call("depart", &[member, segment]);
        // Leaving twice, and coming back, in another class too.
        match self.random.below(4) {
            0 => self.call("depart", &[member, segment]),
            1 => {
                let class = self.random.choose(&[1, 2]);
                let minimum = self.random.between(1, 1_000) as u64;
                self.call("admit", &[member, segment, class, minimum, minimum]);
            }
            _ => {}
        }
    }

    /// A good day file.
    fn day(&mut self, (member, segment): Place, day: u64) -> Day {
        let mut file = match self.random.below(16) {
            0 => {
                let beyond = self.random.choose(&[0, -1, -999, -1_000]);
                days::at_the_column(&mut self.random, beyond)
            }
            1..=4 => days::plain(&mut self.random),
            _ => days::small(&mut self.random),
        };
        (file.member, file.segment, file.day) = (member as i64, segment as i64, day as i64);
        file
    }

    /// A good day file for a seat, or for none; of a day that is good there, or past.
    fn booking(&mut self) {
        let found = match self.random.below(8) {
            0 => self.place(Seat::is_empty),
            1 => self.place(|seat| seat.class > 2),
            2 => self.place(|seat| seat.days > 0),
            _ => self.place(|seat| !seat.is_empty()),
        };
        let place = match found {
            Some(place) => place,
            None => self.some_place(),
        };
        let last = self.book().seat(place.0, place.1).last_day;
        let day = match self.random.below(40) {
            0 => 1_000_000,
            1 => 1,
            2..=7 => last,
            8..=11 => last.saturating_sub(1),
            12..=19 => last + self.random.between(2, 400) as u64,
            _ => last + 1,
        };
        let file = self.day(place, day.clamp(1, 1_000_000)).bytes();
        self.put(&file);
        if self.random.once_in(6) {
            self.put(&file);
        }
    }

    /// Figures for one seat until its mean is full, and what is refused then; at times a return.
    fn full_mean(&mut self) {
        let Some(place) = self.place(|seat| !seat.is_empty()) else { return };
        let first = self.random.between(1, 5);
        let largest = self.random.once_in(3);
        for days in 0..=MEAN_DAYS {
            let day = self.book().seat(place.0, place.1).last_day + first as u64;
            let mut file = days::small(&mut self.random);
            if largest {
                file = days::at_column(&mut self.random, 1, 0, 0);
            }
            (file.member, file.segment, file.day) = (place.0 as i64, place.1 as i64, day as i64);
            self.put(&file.bytes());
            if days == MEAN_DAYS || self.random.once_in(12) {
                file.day -= self.random.between(0, 1).min(file.day - 1);
                self.put(&file.bytes());
            }
            if self.random.once_in(12) {
                self.some(0);
            }
        }
        if self.random.once_in(2) {
            self.call("depart", &[place.0, place.1]);
            self.call("admit", &[place.0, place.1, self.class_of(place.0).unwrap_or(1), 1, 1]);
            let file = self.day(place, first as u64).bytes();
            self.put(&file);
        }
    }

    /// A segment filled to its ceiling, one more, some taken out and paid again.
    fn ceiling(&mut self) {
        let segment = self.random.between(1, 5) as u64;
        for _ in 0..4 {
            let member = self.some_member();
            let seat = *self.book().seat(member, segment);
            let class = self.class_of(member).unwrap_or(1);
            let room = self.room(segment);
            let most = room.min(AMOUNT);
            if seat.is_empty() && shares(class) {
                if self.random.once_in(2) && room < AMOUNT {
                    self.call("admit", &[member, segment, class, 1, room + 1]);
                }
                self.call("admit", &[member, segment, class, 1 + (most > 1_000) as u64, most]);
            } else {
                if self.random.once_in(2) && room < AMOUNT {
                    self.call("pay", &[member, segment, room + 1]);
                }
                self.call("pay", &[member, segment, most]);
            }
        }
        let found = self.place(|seat| seat.held > seat.asked);
        if let Some((member, segment)) = found {
            let some = self.random.between(1, 9) as u64;
            self.call("pay", &[member, segment, 1]);
            self.call("withdraw", &[member, segment, some]);
            let room = self.room(segment);
            self.call("pay", &[member, segment, room + 1]);
            self.call("pay", &[member, segment, room]);
        }
        let empty = self.place(Seat::is_empty);
        if let Some((member, _)) = empty {
            let class = self.class_of(member).unwrap_or(2);
            let paid = shares(class) as u64;
            self.call("admit", &[member, segment, class, paid, paid]);
        }
        // A segment that stays full is of little use to what follows.
        for member in self.members.clone() {
            if self.book().seat(member, segment).held > 1_000_000 && !self.random.once_in(3) {
                self.call("depart", &[member, segment]);
            }
        }
    }

    fn damaged_day(&mut self) {
        let place = match self.place(|seat| !seat.is_empty()) {
            Some(place) if !self.random.once_in(4) => place,
            _ => self.some_place(),
        };
        let day = self.book().seat(place.0, place.1).last_day + 1;
        let mut file = self.day(place, day.min(1_000_000));
        let mut bytes = file.bytes();
        match self.random.below(10) {
            8 => {
                let margins = self.random.choose(&[(MARGIN + 1, 0), (0, MARGIN + 1), (9_999_999_999_999, MARGIN)]);
                let kind = days::kind(&mut self.random);
                file.accounts.push(days::account(kind, margins.0, margins.1, Vec::new()));
                bytes = file.bytes();
            }
            9 => {
                let passed = days::at_the_column(&mut self.random, 1);
                (file.scenarios, file.changes, file.accounts) =
                    (passed.scenarios, passed.changes, passed.accounts);
                bytes = file.bytes();
            }
            0 => damage::bytes_at_random(&mut self.random, &mut bytes),
            1 => bytes.truncate(self.random.below(bytes.len()) + 1),
            _ => {
                for _ in 0..self.random.choose(&[1, 1, 1, 2, 3]) {
                    bytes = damage::at_random(&mut self.random, &bytes);
                }
            }
        }
        self.closed(bytes);
    }

    /// A day file without its end, and something that ends it.
    fn cut_day(&mut self) {
        let place = self.some_place();
        let lines = self.day(place, 1).lines();
        let bytes = days::ended(&lines[..1 + self.random.below(lines.len())]);
        self.closed(bytes);
    }

    /// Puts a piece that may reach beyond itself, with something that ends it.
    fn closed(&mut self, mut piece: Vec<u8>) {
        if piece.last().is_some_and(|byte| *byte != 10) {
            if self.random.once_in(4) {
                piece.extend(self.any_line());
            }
            piece.push(10);
        }
        while is_open(&piece) {
            match self.random.below(4) {
                0 | 1 => {
                    let place = self.some_place();
                    let day = self.book().seat(place.0, place.1).last_day + 1;
                    piece.extend(self.day(place, day.min(1_000_000)).bytes());
                }
                2 => piece.extend(b"form=1\n"),
                _ => {
                    for _ in 0..self.random.below(4) {
                        piece.extend(self.any_line());
                        piece.push(10);
                    }
                    piece.extend(self.random.pick::<[u8]>(&[b"end=0\n", b"end=\n", b"end=1\n", b"end=x\r\n"]));
                }
            }
        }
        self.put(&piece);
    }

    /// A line that may be an entry, whose numbers are at random.
    fn any_line(&mut self) -> Vec<u8> {
        let (name, count) = self.random.choose(&[("admit", 5), ("pay", 3), ("withdraw", 3), ("depart", 2)]);
        let place = self.some_place();
        let mut fields = vec![place.0, place.1];
        while fields.len() < count {
            let some = self.random.between(0, 5_000) as u64;
            fields.push(self.random.choose(&[0, 1, 2, 3, 4, 5, some, some, MINIMUM, AMOUNT, AMOUNT + 1]));
        }
        call(name, &fields)
    }

    fn unread(&mut self) {
        let good = self.any_line();
        let line = match self.random.below(6) {
            0 => self.random.pick(&NO_ENTRIES).as_bytes().to_vec(),
            1 | 2 => {
                let n = self.random.below(damage::field_count(&good));
                damage::with_field(&good, n, self.random.pick(&NO_NUMBERS))
            }
            3 => {
                let strange: &[u8] =
                    self.random.pick::<[u8]>(&[b"", b" ", b"\t", b"\r", b"\0", b"\xff\xfe", b"#", b"\x0b"]);
                match self.random.below(3) {
                    0 => [strange, &good].concat(),
                    1 => [&good, strange].concat(),
                    _ => strange.to_vec(),
                }
            }
            4 => {
                let mut bytes = good.clone();
                damage::bytes_at_random(&mut self.random, &mut bytes);
                bytes
            }
            _ => {
                let damage = self.random.choose(&Damage::ALL);
                let mut bytes = damage.done_to(&vec![good], 0);
                if bytes.last() == Some(&10) {
                    bytes.pop();
                }
                bytes
            }
        };
        let mut piece = line;
        piece.push(10);
        self.closed(piece);
    }

    /// Day files about the largest size, and long lines.
    fn long(&mut self) {
        let place = self.place(|seat| !seat.is_empty()).unwrap_or((1, 1));
        let day = self.book().seat(place.0, place.1).last_day + 1;
        match self.random.below(5) {
            0 => self.line(vec![b'x'; 70_000]),
            1 => self.line([&b"pay=1,1,"[..], &[b'0'; 5_000]].concat()),
            2 => self.line([&b"depart=1,1"[..], &b",1".repeat(40_000)].concat()),
            3 => {
                let mut piece = b"form=1\n".to_vec();
                for _ in 0..6_000 {
                    piece.extend(b"pay=1,1,1\n");
                }
                piece.extend(b"end=0\n");
                self.put(&piece);
            }
            _ => {
                let bytes = self.random.choose(&[59_999, 60_000, 60_001]);
                let mut file = days::small(&mut self.random);
                (file.member, file.segment, file.day) =
                    (place.0 as i64, place.1 as i64, day.min(1_000_000) as i64);
                let file = days::grown(&mut self.random, file, bytes).bytes();
                self.put(&file);
            }
        }
    }

    /// The end of the journal, where a line may be unended and a day file cut.
    fn last(&mut self) {
        let place = self.some_place();
        let day = self.book().seat(place.0, place.1).last_day + 1;
        let file = self.day(place, day.min(1_000_000)).bytes();
        let cut = self.random.below(file.len() + 1);
        let bytes = match self.random.below(8) {
            0 | 1 => Vec::new(),
            2 => self.any_line(),
            3 => self.random.pick::<[u8]>(&[b"form=", b"form=1", b"form=\n", b"form=1\n", b"form"]).to_vec(),
            4 => file[..cut].to_vec(),
            5 => file[..file.len() - 1].to_vec(),
            6 => [&b"form=1\n"[..], &self.any_line(), b"\n"].concat(),
            _ => self.random.pick::<[u8]>(&[b"\r", b" ", b"x", b"\0", b"end=0", b"\n\n"]).to_vec(),
        };
        self.put(&bytes);
    }
}

fn call(name: &str, fields: &[u64]) -> Vec<u8> {
    let fields: Vec<String> = fields.iter().map(u64::to_string).collect();
    format!("{name}={}", fields.join(",")).into_bytes()
}

#[cfg(test)]
mod tests {
    use super::*;
    use crate::journal::{parts, played};
    use std::collections::BTreeMap;

    #[test]
    fn a_seed_gives_the_same_journals() {
        assert!((0..60).all(|n| nth(1, n) == nth(1, n)));
        assert!((20..60).all(|n| nth(1, n) != nth(2, n)));
    }

    #[test]
    fn the_player_that_goes_along_is_right() {
        for n in TINY.len()..120 {
            let mut maker = Maker::new(Random::nth(3, n as u64));
            maker.make(n);
            assert!(maker.player.book.forms());
            assert_eq!(played(&maker.bytes), maker.player.answers);
            let count = parts(&maker.bytes).len();
            assert!((60..600).contains(&count), "{count}");
        }
    }

    /// Every answer but those that need a strike is met, and not once only.
    #[test]
    fn every_answer_is_met() {
        let mut met: BTreeMap<String, usize> = BTreeMap::new();
        for n in 0..300 {
            for answer in played(&nth(1, n)).lines() {
                let (name, rest) = answer.split_once('=').unwrap();
                let told = match (name, rest.split_once(',')) {
                    ("refused", Some((number, _))) => format!("refused={number}"),
                    (_, Some(("refused", _))) => answer.to_string(),
                    _ => name.to_string(),
                };
                *met.entry(told).or_default() += 1;
            }
        }
        let wanted = [
            ("admit", &[1, 2, 11, 12, 13, 14, 15][..]),
            ("book", &[16, 17, 18]),
            ("pay", &[1, 2, 16, 19, 14, 15]),
            ("withdraw", &[1, 2, 16, 14, 24]),
            ("depart", &[1, 2, 16]),
        ];
        for (name, numbers) in wanted {
            assert!(met[name] >= 100, "{name} {met:?}");
            for number in numbers {
                let answer = format!("{name}=refused,{number}");
                assert!(met.get(&answer).is_some_and(|count| *count >= 20), "{answer} {met:?}");
            }
        }
        for number in [1, 2, 3, 4, 5, 6, 7, 8, 31, 32, 33, 34] {
            assert!(met.contains_key(&format!("refused={number}")), "{number} {met:?}");
        }
        assert!(met["unread"] >= 1_000, "{met:?}");
    }
}
