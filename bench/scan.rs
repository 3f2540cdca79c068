//! A flat scan in plain Rust, the peer of `flat`: a feed of bench/flat_times.py as columns of 12 bytes a record, and its
//! questions by one pass over all records each, on one thread.
//!
//! `rustc -O --edition 2021 bench/scan.rs`, then `scan FEED`. Of each question it prints the name, the sum of its rows
//! and the least processor time of five rounds, in milliseconds.
use std::fs::File;
use std::hint::black_box;
use std::io::{BufRead, BufReader};
use std::ops::Range;

mod clock;
use clock::busy;

const ROUNDS: usize = 5;

/// The records, column by column.
#[derive(Default)]
struct Columns {
    x: Vec<u16>,
    y: Vec<u16>,
    bin: Vec<u32>,
    categories: [Vec<u8>; 4],
}

/// What a question asks for: a rectangle, an interval, and a set of values of each category.
struct Filter {
    x: Range<u32>,
    y: Range<u32>,
    bins: Range<u32>,
    sets: [[bool; 256]; 4],
}

impl Filter {
    fn all() -> Filter {
        Filter { x: 0..65_536, y: 0..65_536, bins: 0..u32::MAX, sets: [[true; 256]; 4] }
    }

    /// The three sets and the interval of bench/flat_times.py.
    fn some() -> Filter {
        let mut filter = Filter { bins: 3_000..15_000, ..Filter::all() };
        for (set, values) in filter.sets.iter_mut().zip([0..3, 3..5, 5..7]) {
            *set = std::array::from_fn(|value| values.contains(&value));
        }
        filter
    }
}

impl Columns {
    fn read(path: &str) -> std::io::Result<Columns> {
        let mut columns = Columns::default();
        for line in BufReader::new(File::open(path)?).lines().skip(1) {
            let line = line?;
            let mut fields = line.split(',').map(number);
            let mut next = || fields.next().expect("seven fields");
            columns.x.push(next() as u16);
            columns.y.push(next() as u16);
            columns.bin.push(next());
            for values in &mut columns.categories {
                values.push(next() as u8);
            }
        }
        Ok(columns)
    }

    fn passes(&self, i: usize, filter: &Filter) -> bool {
        filter.x.contains(&u32::from(self.x[i]))
            && filter.y.contains(&u32::from(self.y[i]))
            && filter.bins.contains(&self.bin[i])
            && (0..4).all(|c| filter.sets[c][usize::from(self.categories[c][i])])
    }

    fn passing<'a>(&'a self, filter: &'a Filter) -> impl Iterator<Item = usize> + 'a {
        (0..self.x.len()).filter(|&i| self.passes(i, filter))
    }

    fn count(&self, filter: &Filter) -> u64 {
        self.passing(filter).count() as u64
    }

    /// The total of each of so many rows, by the row that each record is of.
    fn rows(&self, count: usize, row: impl Fn(usize) -> usize) -> Vec<u64> {
        let mut totals = vec![0; count];
        for i in self.passing(&Filter::all()) {
            if let Some(total) = totals.get_mut(row(i)) {
                *total += 1;
            }
        }
        totals
    }
}

/// The number at the end of a field, as 17 in `kind17`.
fn number(field: &str) -> u32 {
    field.trim_start_matches(|c: char| !c.is_ascii_digit()).parse().expect("a number")
}

fn take(name: &str, question: impl Fn() -> u64) {
    let mut least = f64::MAX;
    let mut total = 0;
    for _ in 0..ROUNDS {
        let begun = busy();
        total = black_box(question());
        least = least.min((busy() - begun) * 1e3);
    }
    println!("{name}: {total}, {least:.0} ms");
}

fn main() -> std::io::Result<()> {
    let columns = Columns::read(&std::env::args().nth(1).expect("a feed"))?;
    take("count", || columns.count(&Filter::some()));
    take("window", || columns.count(&Filter { x: 20_000..45_000, y: 20_000..45_000, ..Filter::some() }));
    let tile = 8 << 12..9 << 12;
    take("count in 4/8/8", || columns.count(&Filter { x: tile.clone(), y: tile.clone(), ..Filter::all() }));
    take("hist kind", || columns.rows(30, |i| usize::from(columns.categories[0][i])).iter().sum());
    take("series 0 20 1000", || columns.rows(1_000, |i| columns.bin[i] as usize / 20).iter().sum());
    let cell = |i: usize| usize::from(columns.y[i] >> 7) * 512 + usize::from(columns.x[i] >> 7);
    take("map 9", || columns.rows(512 * 512, cell).iter().sum());
    Ok(())
}
