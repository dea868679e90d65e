// A hand-written reader of lineitem rows: it parses the sixteen columns of each line into a struct, and prints the number
// of rows and the sum of the first column.
use std::io::{BufRead, BufReader};

#[allow(dead_code)]
struct LineItem {
    orderkey: u64,
    partkey: u64,
    suppkey: u64,
    linenumber: u64,
    quantity: i64,
    extendedprice: i64,
    discount: i64,
    tax: i64,
    returnflag: String,
    linestatus: String,
    shipdate: (u16, u8, u8),
    commitdate: (u16, u8, u8),
    receiptdate: (u16, u8, u8),
    shipinstruct: String,
    shipmode: String,
    comment: String,
}

fn hundredths(text: &str) -> Option<i64> {
    let (below, digits) = match text.strip_prefix('-') {
        Some(digits) => (true, digits),
        None => (false, text),
    };
    let (whole, decimals) = digits.split_once('.').unwrap_or((digits, "0"));
    let mut units = whole.parse::<i64>().ok()? * 100;
    units += match decimals.len() {
        1 => decimals.parse::<i64>().ok()? * 10,
        2 => decimals.parse::<i64>().ok()?,
        _ => return None,
    };
    Some(if below { -units } else { units })
}

fn day(text: &str) -> Option<(u16, u8, u8)> {
    let mut parts = text.split('-');
    let day = (parts.next()?.parse().ok()?, parts.next()?.parse().ok()?, parts.next()?.parse().ok()?);
    (1..=12).contains(&day.1).then_some(day)
}

fn row(line: &str) -> Option<LineItem> {
    let mut fields = line.split('|');
    let mut next = || fields.next();
    Some(LineItem {
        orderkey: next()?.parse().ok()?,
        partkey: next()?.parse().ok()?,
        suppkey: next()?.parse().ok()?,
        linenumber: next()?.parse().ok()?,
        quantity: hundredths(next()?)?,
        extendedprice: hundredths(next()?)?,
        discount: hundredths(next()?)?,
        tax: hundredths(next()?)?,
        returnflag: next()?.to_string(),
        linestatus: next()?.to_string(),
        shipdate: day(next()?)?,
        commitdate: day(next()?)?,
        receiptdate: day(next()?)?,
        shipinstruct: next()?.to_string(),
        shipmode: next()?.to_string(),
        comment: next()?.to_string(),
    })
}

fn main() {
    let mut reader = BufReader::new(std::io::stdin().lock());
    let mut line = String::new();
    let mut rows: Vec<u64> = Vec::new();
    while reader.read_line(&mut line).expect("text") > 0 {
        let row = row(line.trim_end_matches(['\n', '\r'])).expect("a row");
        rows.push(row.orderkey);
        line.clear();
    }
    println!("objects {}, sum {}", rows.len(), rows.iter().map(|key| u128::from(*key)).sum::<u128>());
}
