// A hand-written reader of lineitem rows: it goes from each line to the 28 words of its record, with no allocation, and
// prints the sum of all words and of the number of rows.
use std::io::{BufRead, BufReader};

const OFFSET: u64 = 1 << 62;

struct Fields<'a>(&'a [u8]);

impl<'a> Fields<'a> {
    fn next(&mut self) -> &'a [u8] {
        let at = self.0.iter().position(|&byte| byte == b'|').expect("a bar");
        let field = &self.0[..at];
        self.0 = &self.0[at + 1..];
        field
    }

    fn count(&mut self) -> u64 {
        let mut value = 0;
        for &byte in self.next() {
            assert!(byte.is_ascii_digit());
            value = value * 10 + u64::from(byte - b'0');
        }
        value
    }

    fn hundredths(&mut self) -> u64 {
        let text = self.next();
        let (below, text) = if text[0] == b'-' { (true, &text[1..]) } else { (false, text) };
        let (mut value, mut decimals) = (0i64, -1);
        for &byte in text {
            if byte == b'.' {
                decimals = 0;
            } else {
                assert!(byte.is_ascii_digit());
                value = value * 10 + i64::from(byte - b'0');
                decimals += i32::from(decimals >= 0);
            }
        }
        if decimals <= 0 {
            value *= 100;
        } else if decimals == 1 {
            value *= 10;
        }
        OFFSET.wrapping_add_signed(if below { -value } else { value })
    }

    fn day(&mut self) -> u64 {
        let text = self.next();
        assert!(text.len() == 10);
        let digit = |at: usize| i64::from(text[at] - b'0');
        let year = digit(0) * 1000 + digit(1) * 100 + digit(2) * 10 + digit(3);
        let month = digit(5) * 10 + digit(6);
        let day = digit(8) * 10 + digit(9);
        OFFSET.wrapping_add_signed(day_number(year, month, day))
    }

    fn text<const WORDS: usize>(&mut self, into: &mut [u64]) {
        let text = self.next();
        for place in 0..WORDS {
            into[place] = word(text.get(8 * place..).unwrap_or(&[]));
        }
    }
}

fn day_number(year: i64, month: i64, day: i64) -> i64 {
    let year = if month <= 2 { year - 1 } else { year };
    let era = year / 400;
    let of_era = year - era * 400;
    let of_year = (153 * (if month > 2 { month - 3 } else { month + 9 }) + 2) / 5 + day - 1;
    era * 146_097 + of_era * 365 + of_era / 4 - of_era / 100 + of_year - 719_468
}

fn word(text: &[u8]) -> u64 {
    if let Some(eight) = text.first_chunk() {
        return u64::from_be_bytes(*eight);
    }
    let mut bytes = [0; 8];
    bytes[..text.len()].copy_from_slice(text);
    u64::from_be_bytes(bytes)
}

fn main() {
    let mut input = BufReader::new(std::io::stdin().lock());
    let mut line = Vec::new();
    let mut words = [0; 28];
    let mut sum = 0u64;
    while input.read_until(b'\n', &mut line).expect("text") > 0 {
        assert!(std::str::from_utf8(&line).is_ok());
        let mut fields = Fields(&line);
        for place in 0..4 {
            words[place] = fields.count();
        }
        for place in 4..8 {
            words[place] = fields.hundredths();
        }
        fields.text::<1>(&mut words[8..]);
        fields.text::<1>(&mut words[9..]);
        for place in 10..13 {
            words[place] = fields.day();
        }
        fields.text::<4>(&mut words[13..]);
        fields.text::<2>(&mut words[17..]);
        fields.text::<6>(&mut words[19..]);
        sum = words[..25].iter().fold(sum.wrapping_add(1), |sum, word| sum.wrapping_add(*word));
        line.clear();
    }
    println!("{sum}");
}
