// The hand-written loop that `bench/encode.sh` times beside `smc_types::encode`: the same rows, tests and words.
use std::env;

enum Value {
    Number(i128),
    Day(i32),
    Text(Vec<u8>),
}

#[derive(Clone, Copy)]
enum Kind {
    Count,
    Amount,
    Rate,
    Day,
    Text(usize),
    Reference,
}

const MAX: i128 = 999_999_999_999;
const OFFSET: i128 = 1 << 62;
const LINEITEM: [Kind; 19] = [
    Kind::Count, Kind::Count, Kind::Count, Kind::Count, Kind::Amount, Kind::Amount, Kind::Rate, Kind::Rate,
    Kind::Text(1), Kind::Text(1), Kind::Day, Kind::Day, Kind::Day, Kind::Text(25), Kind::Text(10), Kind::Text(44),
    Kind::Reference, Kind::Reference, Kind::Reference,
];

fn moved(words: &mut Vec<u64>, least: i128, greatest: i128, number: i128) -> Option<()> {
    if number < least || number > greatest {
        return None;
    }
    words.push((number + OFFSET) as u64);
    Some(())
}

#[inline(never)]
fn encode(row: &[Value], columns: &[Kind], refs: &[u64]) -> Option<Vec<u64>> {
    let mut words = Vec::with_capacity(28);
    let mut values = row.iter();
    let mut refs = refs.iter();
    for kind in columns {
        if let Kind::Reference = kind {
            words.push(*refs.next()?);
            continue;
        }
        match (*kind, values.next()?) {
            (Kind::Count, Value::Number(n)) if (0..=MAX).contains(n) => words.push(*n as u64),
            (Kind::Amount, Value::Number(n)) => moved(&mut words, -MAX, MAX, *n)?,
            (Kind::Rate, Value::Number(n)) => moved(&mut words, 0, 999, *n)?,
            (Kind::Day, Value::Day(d)) => moved(&mut words, -719_528, 2_932_896, i128::from(*d))?,
            (Kind::Text(width), Value::Text(text)) if text.len() <= width => {
                let count = width.div_ceil(8);
                for chunk in text.chunks(8) {
                    let mut bytes = [0; 8];
                    bytes[..chunk.len()].copy_from_slice(chunk);
                    words.push(u64::from_be_bytes(bytes));
                }
                for _ in text.len().div_ceil(8)..count {
                    words.push(0);
                }
            }
            _ => return None,
        }
    }
    Some(words)
}

struct Draws(u32);

impl Draws {
    fn next(&mut self, below: u32) -> u32 {
        self.0 = self.0.wrapping_mul(1_103_515_245).wrapping_add(12_345) % 0x8000_0000;
        self.0 / 65_536 % below
    }
    fn number(&mut self, below: u32) -> Value {
        Value::Number(i128::from(self.next(below)))
    }
    fn day(&mut self) -> Value {
        Value::Day(8_035 + self.next(2_400) as i32)
    }
}

fn text(text: &str) -> Value {
    Value::Text(text.as_bytes().to_vec())
}

fn lineitem(d: &mut Draws) -> Vec<Value> {
    vec![
        d.number(6_000), d.number(2_000), d.number(100), d.number(7), d.number(5_000), d.number(30_000),
        d.number(11), d.number(9), text("N"), text("O"), d.day(), d.day(), d.day(),
        text("DELIVER IN PERSON"), text("TRUCK"), text("egular courts above the quick foxes"),
    ]
}

fn main() {
    let turns: u32 = env::args().nth(1).unwrap().parse().unwrap();
    let mut draws = Draws(1);
    let rows: Vec<_> = (0..64).map(|_| lineitem(&mut draws)).collect();
    let refs = [0; 3];
    let mut sum = 0u64;
    for _ in 0..turns {
        for row in &rows {
            for word in encode(row, &LINEITEM, &refs).unwrap() {
                sum = sum.wrapping_add(word);
            }
        }
    }
    println!("{sum}");
}
