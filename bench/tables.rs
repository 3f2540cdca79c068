//! The calls of a table of time and of a list in blocks over a `BTreeMap`, a `Vec` of running totals and a `Vec`.
//! With an argument the totals of 100,000 random bins are taken too, which is slow.
use std::collections::BTreeMap;
use std::time::Instant;

const CALLS: u64 = 1_000_000;
const ITEMS: u64 = 2_000_000;

/// The numbers of a linear congruence from this state on.
fn numbers(state: u64) -> impl Iterator<Item = u64> {
    std::iter::successors(Some(next(state)), |&s| Some(next(s)))
}

fn next(s: u64) -> u64 {
    s.wrapping_mul(6364136223846793005)
        .wrapping_add(1442695040888963407)
}

/// The bins of the calls, drawn or rising.
#[derive(Clone, Copy)]
struct Bins {
    below: u64,
    rising: bool,
}

impl Bins {
    fn drawn_from(self, state: u64) -> impl Iterator<Item = u32> {
        (0..CALLS).zip(numbers(state)).map(move |(i, drawn)| {
            let bin = if self.rising { i * self.below / CALLS } else { (drawn >> 33) % self.below };
            bin as u32
        })
    }
}

/// What a call gives, and how many microseconds it took.
fn timed<T>(call: impl FnOnce() -> T) -> (T, u128) {
    let start = Instant::now();
    let given = call();
    (given, start.elapsed().as_micros())
}

/// Fills a table, asks it, and prints both times.
fn measure<T>(name: &str, bins: Bins, mut table: T, add: impl Fn(&mut T, u32), ask: impl Fn(&T, u32) -> u64) {
    let ((), added) = timed(|| bins.drawn_from(1).for_each(|bin| add(&mut table, bin)));
    let (sum, asked) = timed(|| bins.drawn_from(7).fold(0u64, |sum, bin| sum.wrapping_add(ask(&table, bin))));
    println!("{name} {} {} {added} {asked} {sum}", bins.below, bins.rising);
}

/// The place of the first row from the bin on.
fn place(rows: &[(u32, u64)], bin: u32) -> usize {
    rows.partition_point(|row| row.0 < bin)
}

/// How much the rows before a place have.
fn before(rows: &[(u32, u64)], place: usize) -> u64 {
    if place == 0 { 0 } else { rows[place - 1].1 }
}

fn add_to_totals(rows: &mut Vec<(u32, u64)>, bin: u32) {
    let at = place(rows, bin);
    if at == rows.len() || rows[at].0 != bin {
        rows.insert(at, (bin, before(rows, at)));
    }
    for row in &mut rows[at..] {
        row.1 += 1;
    }
}

fn next_entry(map: &BTreeMap<u32, u64>, bin: u32) -> u64 {
    map.range(bin..).next().map_or(0, |(bin, count)| count + u64::from(*bin))
}

fn list() {
    let (items, pushed) = timed(|| {
        let mut items: Vec<[u64; 5]> = Vec::new();
        for i in 0..ITEMS {
            items.push([i; 5]);
        }
        items
    });
    let places = || numbers(7).take(ITEMS as usize).map(|n| (n >> 33) % ITEMS);
    let (sum, read) = timed(|| places().fold(0u64, |sum, at| sum.wrapping_add(items[at as usize][2])));
    println!("list {pushed} {read} {sum}");
}

fn main() {
    let all = std::env::args().len() > 1;
    for (below, rising) in [(16, false), (1024, false), (100_000, false), (1024, true), (100_000, true)] {
        let bins = Bins { below, rising };
        measure("map", bins, BTreeMap::new(), |map, bin| *map.entry(bin).or_insert(0) += 1, next_entry);
        if all || below < 100_000 || rising {
            measure("totals", bins, Vec::new(), add_to_totals, |rows, bin| before(rows, place(rows, bin)));
        }
    }
    list();
}
