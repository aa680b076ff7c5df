//! The daily tape as a plain Rust program without proofs, to compare the speed of `lean tape` with. It reads well-formed
//! files alone: what `lean` refuses, it panics at or prints otherwise.
use std::cmp::Reverse;
use std::collections::BinaryHeap;
use std::fs;
use std::io::{self, BufWriter, Write};

struct Row {
    date: u32,
    prices: [u64; 4],
    volume: u64,
}

fn number(field: &str) -> u64 {
    let digits = field.split_once('.').map_or(field, |(whole, _)| whole);
    digits.parse().expect("a number")
}

fn row(line: &str) -> Row {
    let mut fields = line.split(',');
    let mut next = || fields.next().expect("six fields");
    let time = next();
    Row {
        date: time[..8].parse().expect("a date"),
        prices: [(); 4].map(|()| number(next())),
        volume: number(next()),
    }
}

fn rows(symbol: &str) -> Vec<Row> {
    let path = format!("equity/usa/daily/{}.csv", symbol.to_ascii_lowercase());
    let text = fs::read_to_string(path).unwrap_or_default();
    text.lines().filter(|line| !line.is_empty()).map(row).collect()
}

fn main() -> io::Result<()> {
    let symbols: Vec<String> = std::env::args().skip(1).collect();
    let sources: Vec<Vec<Row>> = symbols.iter().map(|symbol| rows(symbol)).collect();
    let mut heads: BinaryHeap<Reverse<(u32, usize, usize)>> = BinaryHeap::new();
    for (place, source) in sources.iter().enumerate() {
        if let Some(first) = source.first() {
            heads.push(Reverse((first.date, place, 0)));
        }
    }
    let mut out = BufWriter::with_capacity(65_536, io::stdout().lock());
    let mut count: u64 = 0;
    while let Some(Reverse((date, place, at))) = heads.pop() {
        let row = &sources[place][at];
        write!(out, "{date} {}", symbols[place])?;
        for price in row.prices {
            write!(out, " {}.{:04}", price / 10_000, price % 10_000)?;
        }
        writeln!(out, " {}", row.volume)?;
        count += 1;
        if let Some(next) = sources[place].get(at + 1) {
            heads.push(Reverse((next.date, place, at + 1)));
        }
    }
    writeln!(out, "end {count} rows")?;
    out.flush()
}
