//! The cases that every run should meet, each built on days of the seed's own.

use super::damage::{field_count, parts, with_field, with_key, Damage, KEYS, NO_KINDS, NO_NUMBERS, NUMBERS};
use super::days::{self, account, ended, position, Day, Lines};
use super::Case;
use crate::dayfile::MOST_BYTES;
use crate::random::Random;
use crate::rules::{Kind, MARGIN};
use std::collections::HashSet;

pub fn all(random: &mut Random) -> Vec<Case> {
    let mut cases = Cases(Vec::new());
    cases.good(random);
    cases.headings(random);
    cases.fields(random);
    cases.lines(random);
    cases.cuts(random);
    cases.changes(random);
    cases.accounts(random);
    cases.pairs_of_faults(random);
    cases.many_positions(random);
    cases.ends(random);
    cases.sizes(random);
    let mut seen = HashSet::new();
    cases.0.retain(|case| seen.insert(case.bytes.clone()));
    cases.0
}

struct Cases(Vec<Case>);

impl Cases {
    fn put(&mut self, about: impl Into<String>, bytes: Vec<u8>) {
        self.0.push(Case { about: about.into(), bytes });
    }

    fn good(&mut self, random: &mut Random) {
        self.put("the empty file", Vec::new());
        for _ in 0..10 {
            self.put("a small good day", days::small(random).bytes());
            self.put("a plain good day", days::plain(random).bytes());
        }
        for _ in 0..5 {
            self.put("a good day of middling size", days::medium(random).bytes());
            self.put("a wide day", days::wide(random).bytes());
            self.put("limits of changes and quantities", days::hedged(random).bytes());
        }
        for beyond in [-1_001, -1_000, -999, -1, 0, 1, 2, 1_000] {
            for _ in 0..3 {
                let about = format!("a column at its limit and {beyond}");
                self.put(about, days::at_the_column(random, beyond).bytes());
            }
        }
        for (scenarios, full) in [(1, 0), (64, 0), (64, 62), (64, 63)] {
            for beyond in [0, 1] {
                let about = format!("column {full} of {scenarios} at its limit and {beyond}");
                self.put(about, days::at_column(random, scenarios, full, beyond).bytes());
            }
        }
        for (member, segment, day) in [(1, 1, 1), (64, 5, 1_000_000), (63, 4, 999_999)] {
            let at_limit = Day { member, segment, day, ..days::plain(random) };
            self.put("a heading at its limits", at_limit.bytes());
        }
        let day = Day { accounts: Vec::new(), ..days::wide(random) };
        self.put("no accounts", day.bytes());
    }

    fn headings(&mut self, random: &mut Random) {
        const HEADING: [(usize, &str); 4] = [(1, "65"), (2, "6"), (3, "1000001"), (4, "65")];
        for (i, (one, bad)) in HEADING.iter().enumerate() {
            for (other, worse) in &HEADING[i + 1..] {
                let mut lines = days::plain(random).lines();
                lines[*one] = with_field(&lines[*one], 0, bad.as_bytes());
                lines[*other] = with_field(&lines[*other], 0, worse.as_bytes());
                self.put(format!("no heading by lines {} and {}", one + 1, other + 1), ended(&lines));
            }
            for at in 0..6 {
                let mut lines = days::plain(random).lines();
                lines[*one] = with_field(&lines[*one], 0, bad.as_bytes());
                let about = format!("no heading by line {}, and line {}", one + 1, at + 1);
                self.put(format!("{about} is cut"), Damage::CutUnended.done_to(&lines, at));
                self.put(format!("{about} has a field more"), Damage::FieldMore.done_to(&lines, at));
            }
            let mut lines = days::plain(random).lines();
            lines[*one] = with_field(&lines[*one], 0, bad.as_bytes());
            self.put(format!("no heading by line {}, the last", one + 1), Damage::CutAfter.done_to(&lines, 4));
        }
    }

    /// Each field of one line of each kind, replaced.
    fn fields(&mut self, random: &mut Random) {
        let lines = days::plain(random).lines();
        for at in kinds_of_lines(&lines) {
            for n in 0..field_count(&lines[at]) {
                let kind = lines[at].starts_with(b"acc=") && n == 0;
                let numbers = NUMBERS.iter().map(|number| number.as_bytes());
                let fields: Vec<&[u8]> = match kind {
                    true => NO_KINDS.to_vec(),
                    false => NO_NUMBERS.into_iter().chain(numbers).collect(),
                };
                for field in fields {
                    let mut lines = lines.clone();
                    lines[at] = with_field(&lines[at], n, field);
                    let about = format!("line {}, field {} is {}", at + 1, n + 1, field.escape_ascii());
                    self.put(about, ended(&lines));
                }
            }
        }
    }

    fn lines(&mut self, random: &mut Random) {
        let lines = days::plain(random).lines();
        for at in kinds_of_lines(&lines) {
            for damage in Damage::ALL {
                self.put(format!("line {}: {damage:?}", at + 1), damage.done_to(&lines, at));
            }
            for key in KEYS.iter().filter(|key| key.as_bytes() != parts(&lines[at]).0) {
                let mut lines = lines.clone();
                lines[at] = with_key(&lines[at], key);
                self.put(format!("line {} begins {key}", at + 1), ended(&lines));
            }
        }
        let bytes = ended(&lines);
        let with = |end: &[u8]| lines.join(end);
        self.put("lines ended by 13 and 10", [with(b"\r\n"), b"\r\n".to_vec()].concat());
        self.put("lines ended by 13", [with(b"\r"), b"\r".to_vec()].concat());
        self.put("a byte order mark", [b"\xef\xbb\xbf", &bytes[..]].concat());
        self.put("two days in one file", [&bytes[..], &bytes].concat());
    }

    /// Every beginning of a file that reaches into its changes or further, and a few shorter ones.
    fn cuts(&mut self, random: &mut Random) {
        let day = days::plain(random);
        let (bytes, head) = (day.bytes(), ended(&day.lines()[..6]).len());
        for length in (1..head).step_by(5).chain(head..bytes.len()) {
            self.put(format!("the first {length} bytes"), bytes[..length].to_vec());
        }
    }

    fn changes(&mut self, random: &mut Random) {
        let day = Day { accounts: Vec::new(), ..days::wide(random) };
        let lines = day.lines();
        for (at, n) in [(6, 0), (6, 63), (69, 0), (69, 63), (40, 31)] {
            for field in ["1000000", "-1000000", "1000001", "-1000001", "01", "x"] {
                let mut lines = lines.clone();
                lines[at] = with_field(&lines[at], n, field.as_bytes());
                self.put(format!("wide, line {}, change {} is {field}", at + 1, n + 1), ended(&lines));
            }
        }
        let lines = days::plain(random).lines();
        let chg = |changes: &str| {
            let mut lines = lines.clone();
            lines[6] = format!("chg={changes}").into_bytes();
            ended(&lines)
        };
        for changes in [
            "1000001,1000001,1000001",
            "1000001",
            "1000001,x",
            "x,1000001",
            "1,2,x",
            "1,2,1000001,",
            "1,",
            ",1",
            ",",
            "1,,2",
            "-0,1000001",
        ] {
            self.put(format!("line 7 is chg={changes}"), chg(changes));
        }
        for many in [64, 65, 300, 5_000] {
            self.put(format!("{many} changes"), chg(&vec!["7"; many].join(",")));
            self.put(format!("{many} changes, one bad"), chg(&(vec!["7"; many - 1].join(",") + ",7x")));
        }
    }

    fn accounts(&mut self, random: &mut Random) {
        for kind in [Kind::Own, Kind::Client] {
            for required in [0, MARGIN, MARGIN + 1] {
                for posted in [0, MARGIN, MARGIN + 1] {
                    let mut day = days::plain(random);
                    day.accounts[1] = account(kind, required, posted, vec![position(1, 5)]);
                    self.put(format!("{kind:?}, margins {required} and {posted}"), day.bytes());
                }
            }
        }
        for (kind, required, posted) in [
            (Kind::Own, 500, 0),
            (Kind::Own, 0, 500),
            (Kind::Client, 500, 0),
            (Kind::Client, 0, 500),
            (Kind::Client, 500, 700),
            (Kind::Client, 700, 500),
        ] {
            for loss in [499, 500, 501, 1_500, 1_501] {
                let mut day = days::plain(random);
                day.changes[0] = vec![-1, 0];
                day.accounts = vec![account(kind, required, posted, vec![position(0, loss)])];
                let about = format!("{kind:?}, margins {required} and {posted}, loss {loss}");
                self.put(about, day.bytes());
            }
        }
        let mut day = days::plain(random);
        day.changes[0] = vec![-1_000, 1_000];
        day.accounts = vec![
            account(Kind::Own, 0, 0, vec![position(0, 9)]),
            account(Kind::Own, 0, 0, vec![position(0, -7)]),
            account(Kind::Own, 0, 0, Vec::new()),
            account(Kind::Client, 0, 0, vec![position(0, 5), position(0, 5), position(0, -8)]),
        ];
        self.put("gains beside losses", day.bytes());
    }

    /// An account that is refused, and another fault beside it.
    fn pairs_of_faults(&mut self, random: &mut Random) {
        // What is wrong with an account: lines of it.
        let refused: [(&str, &[&str]); 8] = [
            ("an unknown asset", &["acc=own,0,0", "pos=2,1"]),
            ("a quantity of 0", &["acc=own,0,0", "pos=0,0"]),
            ("a large margin", &["acc=cli,0,1000000000001"]),
            ("a full column", &["acc=own,0,0", "pos=1,10000000", "pos=1,-1"]),
            ("asset and margin", &["acc=own,1000000000001,0", "pos=0,1", "pos=64,1"]),
            ("quantity and column", &["acc=cli,0,0", "pos=1,10000000", "pos=0,10000001"]),
            ("margin and column", &["acc=own,1,1000000000001", "pos=1,10000000"]),
            ("asset, margin and column", &["acc=own,9999999999999,0", "pos=1,10000000", "pos=99,-7"]),
        ];
        let next: [(&str, &str); 19] = [
            ("the end of the input", ""),
            ("an unended acc", "acc=own,0,0"),
            ("an unended end", "end=1"),
            ("an unended pos", "pos="),
            ("an unended full pos", "pos=0,1"),
            ("an unended po", "po"),
            ("a strange line", "pos 0,1\nend=1\n"),
            ("an empty line", "\nend=1\n"),
            ("another key", "chg=1,1\nend=1\n"),
            ("a capital key", "POS=0,1\nend=1\n"),
            ("a bad account", "acc=own,0\nend=2\n"),
            ("a bad position", "pos=0\nend=1\n"),
            ("a bad number", "pos=0,1\npos=-0,1\nend=1\n"),
            ("a bad end", "end=x\n"),
            ("a wrong end", "end=2\n"),
            ("an end with more behind", "end=1\nx"),
            ("another bad quantity", "acc=own,0,0\npos=0,0\nend=2\n"),
            ("another large margin", "acc=own,1000000000001,0\nend=2\n"),
            ("a good end", "end=1\n"),
        ];
        let mut day = days::plain(random);
        day.changes = vec![vec![-1, -1], vec![-5, -1_000_000]];
        day.accounts.clear();
        let mut head = day.lines();
        head.pop();
        for (n, (fault, account)) in refused.into_iter().enumerate() {
            // Accounts with several faults need not meet every next line.
            for (other, text) in next.into_iter().step_by(if n < 4 { 1 } else { 6 }) {
                let account: Lines = account.iter().map(|line| line.as_bytes().to_vec()).collect();
                let bytes = [ended(&head), ended(&account), text.as_bytes().to_vec()].concat();
                self.put(format!("{fault}, then {other}"), bytes);
            }
        }
        for (other, text) in next {
            let bytes = [ended(&head), b"acc=own,3,3\npos=0,7\n".to_vec(), text.as_bytes().to_vec()].concat();
            self.put(format!("a good account, then {other}"), bytes);
            let bytes = [ended(&head), text.as_bytes().to_vec()].concat();
            self.put(format!("no account, then {other}"), bytes);
        }
    }

    fn many_positions(&mut self, random: &mut Random) {
        let mut day = days::plain(random);
        let next = [
            "end=2\n",
            "end=3\n",
            "end=2\n\n",
            "x",
            "",
            "pos=",
            "pos=0,1",
            "pos=0,01\nend=2\n",
            "pos=0,1\npos=0,01\nend=2\n",
            "pos=0,1\npos=0,1",
            "pos=2,1\nend=2\n",
            "acc=own,1,1,1\n",
            "acc=own,1,1\nend=3\n",
        ];
        for count in [63, 64, 65, 66] {
            for margin in [0, MARGIN + 1] {
                let many = (0..count).map(|n| position(n % 2, 1 + random.between(0, 50))).collect();
                day.accounts[1] = account(Kind::Own, margin, 0, many);
                let mut head = day.lines();
                head.pop();
                let few = if margin == 0 { next.len() } else { 3 };
                for text in &next[..few] {
                    let about = format!("{count} positions, margin {margin}, then {}", text.escape_default());
                    self.put(about, [ended(&head), text.as_bytes().to_vec()].concat());
                }
                if count == 64 {
                    head.truncate(head.len() - 1);
                    head.push(b"pos=0,0".to_vec());
                    self.put("the 64th position is bad", [ended(&head), b"end=2\n".to_vec()].concat());
                }
            }
        }
    }

    fn ends(&mut self, random: &mut Random) {
        for count in 0..3 {
            let mut day = days::plain(random);
            day.accounts = (0..count).map(|_| account(Kind::Own, 1, 0, vec![position(0, 2)])).collect();
            let mut lines = day.lines();
            for behind in ["", "\n", "x", "end=0\n", "acc=own,0,0\n", "pos=0,1\n", " ", "\r", "\0"] {
                self.put(format!("end, then {}", behind.escape_default()), {
                    [ended(&lines), behind.as_bytes().to_vec()].concat()
                });
            }
            let last = lines.len() - 1;
            for wrong in [(count + 1).to_string(), (count + 256).to_string(), "4294967296".into()] {
                lines[last] = format!("end={wrong}").into_bytes();
                self.put(format!("end={wrong} for {count}"), ended(&lines));
                self.put(format!("end={wrong} for {count}, then x"), [ended(&lines), b"x".to_vec()].concat());
            }
        }
    }

    fn sizes(&mut self, random: &mut Random) {
        for bytes in [59_999, 60_000, 60_000, 60_001, 60_002, 65_536, 65_537, 200_000] {
            self.put(format!("a good day of {bytes} bytes"), days::sized(random, bytes).bytes());
        }
        for bytes in [MOST_BYTES - 1, MOST_BYTES, MOST_BYTES + 1] {
            let about = format!("{bytes} bytes");
            for byte in [10, b'x', 0, b'1'] {
                self.put(format!("{about}, all {byte}"), vec![byte; bytes]);
            }
            let filled = |start: &[u8], byte: u8| {
                let mut all = start.to_vec();
                all.resize(bytes, byte);
                all
            };
            let plain = days::plain(random);
            self.put(format!("{about}, a good day first"), filled(&plain.bytes(), b'1'));
            self.put(format!("{about}, a good day and lines"), filled(&plain.bytes(), 10));
            self.put(format!("{about}, one long line"), filled(b"form=", b'1'));
            self.put(format!("{about}, a bad form"), filled(b"form=2\n", b'1'));
            let head = ended(&plain.lines()[..6]);
            self.put(format!("{about}, one long chg"), filled(&[&head[..], b"chg="].concat(), b'1'));
            let mut long = days::sized(random, bytes - 1).bytes();
            long.push(b'x');
            self.put(format!("{about}, one behind the end"), long);
            let mut wrong = days::sized(random, bytes).bytes();
            wrong[bytes - 2] ^= 1;
            self.put(format!("{about}, a wrong end"), wrong);
            let mut unended = days::sized(random, bytes + 1).bytes();
            unended.pop();
            self.put(format!("{about}, the end not ended"), unended);
            let mut refused = days::sized(random, bytes - 11);
            refused.accounts[0].positions = vec![position(9, 1)];
            refused.accounts[1].required = MARGIN + 1;
            self.put("a long file with two bad accounts", refused.bytes());
        }
    }
}

/// The first line of each kind.
fn kinds_of_lines(lines: &Lines) -> Vec<usize> {
    KEYS.iter().filter_map(|key| lines.iter().position(|line| line.starts_with(key.as_bytes()))).collect()
}
