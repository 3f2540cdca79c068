//! The same structure in plain Rust: nodes with shared links and time tables of running totals, filled point by point.
//!
//! Without arguments, or with a number of records, it makes records of two kinds and times insertion and replies.
//! `nanocube DEPTH NUMBERS SCRIPT NAME=VALUE|VALUE..` inserts the lines of NUMBERS (x, y, the numbers of the values, the bin),
//! then reads SCRIPT, prints the reply to each of its lines by one write, and tells on standard error how many seconds of a
//! processor that took.
use std::collections::HashSet;
use std::fmt::Write as _;
use std::fs::File;
use std::io::{self, BufRead, BufReader, Write as _};
use std::time::Instant;

#[path = "clock.rs"]
mod clock;
pub use clock::busy;

const NONE: u32 = u32::MAX;

#[derive(Clone, Copy)]
pub struct Child {
    to: u32,
    label: u8,
    shared: bool,
}

#[derive(Clone)]
pub enum Slot {
    Node { children: Vec<Child>, content: u32, shared: bool },
    Table(Vec<(u32, u64)>),
}

pub struct Cube {
    pub slots: Vec<Slot>,
    visits: u64,
    changes: u64,
}

pub struct Point {
    pub labels: Vec<Vec<u8>>,
    pub bin: u32,
}

fn point(depth: usize, x: u32, y: u32, values: &[u8], bin: u32) -> Point {
    let space = (0..depth)
        .map(|level| {
            let shift = depth - 1 - level;
            (2 * (y >> shift & 1) + (x >> shift & 1)) as u8
        })
        .collect();
    let mut labels: Vec<Vec<u8>> = vec![space];
    labels.extend(values.iter().map(|value| vec![*value]));
    Point { labels, bin }
}

impl Cube {
    pub fn new() -> Cube {
        let mut cube = Cube { slots: Vec::new(), visits: 0, changes: 0 };
        cube.add_node();
        cube
    }

    fn push(&mut self, slot: Slot) -> u32 {
        self.changes += 1;
        self.slots.push(slot);
        (self.slots.len() - 1) as u32
    }

    fn add_node(&mut self) -> u32 {
        self.push(Slot::Node { children: Vec::new(), content: NONE, shared: false })
    }

    fn copy(&mut self, from: u32) -> u32 {
        let mut slot = self.slots[from as usize].clone();
        if let Slot::Node { children, shared, .. } = &mut slot {
            children.iter_mut().for_each(|child| child.shared = true);
            *shared = true;
        }
        self.push(slot)
    }

    fn child(&self, node: u32, label: u8) -> Option<Child> {
        match &self.slots[node as usize] {
            Slot::Node { children, .. } => children.binary_search_by_key(&label, |c| c.label).ok().map(|i| children[i]),
            Slot::Table(_) => None,
        }
    }

    fn put_child(&mut self, node: u32, child: Child) {
        self.changes += 1;
        if let Slot::Node { children, .. } = &mut self.slots[node as usize] {
            match children.binary_search_by_key(&child.label, |c| c.label) {
                Ok(i) => children[i] = child,
                Err(i) => children.insert(i, child),
            }
        }
    }

    fn content(&self, node: u32) -> (u32, bool) {
        match &self.slots[node as usize] {
            Slot::Node { content, shared, .. } => (*content, *shared),
            Slot::Table(_) => (NONE, false),
        }
    }

    fn set_content(&mut self, node: u32, to: u32, is_shared: bool) {
        self.changes += 1;
        if let Slot::Node { content, shared, .. } = &mut self.slots[node as usize] {
            *content = to;
            *shared = is_shared;
        }
    }

    fn only_child(&self, node: u32) -> Option<u32> {
        match &self.slots[node as usize] {
            Slot::Node { children, .. } if children.len() == 1 => Some(children[0].to),
            _ => None,
        }
    }

    fn trail(&mut self, point: &Point, dim: usize, root: u32) -> Vec<u32> {
        let mut stack = vec![root];
        let mut node = root;
        for &label in &point.labels[dim] {
            node = match self.child(node, label) {
                None => {
                    let to = self.add_node();
                    self.put_child(node, Child { to, label, shared: false });
                    to
                }
                Some(child) if child.shared => {
                    let to = self.copy(child.to);
                    self.put_child(node, Child { to, label, shared: false });
                    to
                }
                Some(child) => child.to,
            };
            stack.push(node);
        }
        stack
    }

    fn add(&mut self, point: &Point, dim: usize, root: u32, updated: &mut HashSet<u32>) {
        let last = dim + 1 == point.labels.len();
        let mut stack = self.trail(point, dim, root);
        while let Some(node) = stack.pop() {
            self.visits += 1;
            if let Some(child) = self.only_child(node) {
                let (content, _) = self.content(child);
                self.set_content(node, content, true);
                continue;
            }
            let (content, shared) = self.content(node);
            let to = if content == NONE {
                let to = if last { self.push(Slot::Table(Vec::new())) } else { self.add_node() };
                self.set_content(node, to, false);
                to
            } else if shared && !updated.contains(&content) {
                let to = self.copy(content);
                self.set_content(node, to, false);
                to
            } else if !shared && !updated.contains(&content) {
                content
            } else {
                continue;
            };
            if last {
                self.count(to, point.bin);
            } else {
                self.add(point, dim + 1, to, updated);
            }
            updated.insert(to);
        }
    }

    fn count(&mut self, table: u32, bin: u32) {
        self.changes += 1;
        if let Slot::Table(rows) = &mut self.slots[table as usize] {
            let at = match rows.binary_search_by_key(&bin, |row| row.0) {
                Ok(i) => i,
                Err(i) => {
                    let below = if i == 0 { 0 } else { rows[i - 1].1 };
                    rows.insert(i, (bin, below));
                    i
                }
            };
            rows[at..].iter_mut().for_each(|row| row.1 += 1);
        }
    }

    pub fn insert(&mut self, point: &Point) {
        self.add(point, 0, 0, &mut HashSet::new());
    }

    fn before(&self, table: u32, end: u64) -> u64 {
        match &self.slots[table as usize] {
            Slot::Table(rows) => match rows.partition_point(|row| u64::from(row.0) < end) {
                0 => 0,
                i => rows[i - 1].1,
            },
            Slot::Node { .. } => 0,
        }
    }

    fn tile(&self, z: u8, x: u32, y: u32) -> Option<u32> {
        let mut node = 0;
        for level in 0..z {
            let shift = z - 1 - level;
            let label = (2 * (y >> shift & 1) + (x >> shift & 1)) as u8;
            node = self.child(node, label)?.to;
        }
        Some(node)
    }

    fn total_at(&self, node: u32, kind: Option<u8>, from: u64, to: u64) -> u64 {
        let (category, _) = self.content(node);
        let at = match kind {
            Some(kind) => match self.child(category, kind) {
                Some(child) => child.to,
                None => return 0,
            },
            None => category,
        };
        let (table, _) = self.content(at);
        self.before(table, to) - self.before(table, from)
    }

    fn total_of_pair(&self, node: u32, kind: u8, side: u8, from: u64, to: u64) -> u64 {
        let way = || {
            let of_kind = self.child(self.content(node).0, kind)?.to;
            Some(self.child(self.content(of_kind).0, side)?.to)
        };
        let at = |end: u32| self.content(end).0;
        way().map_or(0, |end| self.before(at(end), to) - self.before(at(end), from))
    }

    fn map(&self, node: u32, left: u8, z: u8, x: u32, y: u32, rows: &mut Vec<(u8, u32, u32, u64)>) {
        if left == 0 {
            rows.push((z, x, y, self.total_at(node, None, 0, 1 << 32)));
            return;
        }
        for label in 0..4u8 {
            if let Some(child) = self.child(node, label) {
                self.map(child.to, left - 1, z + 1, 2 * x + u32::from(label & 1), 2 * y + u32::from(label >> 1), rows);
            }
        }
    }
}

fn step(s: u64) -> u64 {
    s.wrapping_mul(6364136223846793005).wrapping_add(1442695040888963407)
}

fn generated(s: u64) -> Point {
    point(10, (s >> 54) as u32, (s >> 44) as u32 % 1024, &[((s >> 42) % 4) as u8], ((s >> 32) % 1024) as u32)
}

fn city(s: u64) -> Point {
    let values = [((s >> 42) % 4) as u8, ((s >> 40) % 2) as u8];
    point(10, 300 + 2 * (s >> 59) as u32, 500 + 2 * ((s >> 44) % 32) as u32, &values, ((s >> 30) % 744) as u32)
}

fn filled(name: &str, records: u32, made: fn(u64) -> Point) -> Cube {
    let mut s = 1u64;
    let start = Instant::now();
    let mut cube = Cube::new();
    for _ in 0..records {
        s = step(s);
        cube.insert(&made(s));
    }
    let each = f64::from(records);
    println!(
        "{records} inserts, {name}: {:.2} us each, {} slots, {:.1} visits and {:.1} changes each",
        start.elapsed().as_secs_f64() * 1e6 / each,
        cube.slots.len(),
        cube.visits as f64 / each,
        cube.changes as f64 / each
    );
    cube
}

/// The names of the categories and of their values.
struct Names(Vec<(String, Vec<String>)>);

impl Names {
    fn category(&self, name: &str) -> Option<usize> {
        self.0.iter().position(|category| category.0 == name)
    }

    /// The values of a category, by its number.
    fn values(&self, category: usize) -> &[String] {
        self.0.get(category).map_or(&[], |it| &it.1)
    }

    /// Of `NAME=VALUE|VALUE..`.
    fn of(words: impl Iterator<Item = String>) -> Names {
        let category = |word: String| {
            let (name, values) = word.split_once('=').unwrap();
            (name.to_string(), values.split('|').map(str::to_string).collect())
        };
        Names(words.map(category).collect())
    }
}

/// What a line asks for, and of which records: `kind` is a value of the first category, `Hist` lists that category's values,
/// and `Cross` those of the first two.
enum Verb {
    Count,
    Hist,
    Map(u8),
    Series(u64, u64, u64),
    Cross,
}

struct Query {
    verb: Verb,
    tile: (u8, u32, u32),
    kind: Option<u8>,
    from: u64,
    to: u64,
}

/// The query of a line of words, with the filters that the lines here have.
fn read(names: &Names, line: &str) -> Option<Query> {
    let mut words = line.split_ascii_whitespace();
    let verb = match words.next()? {
        "count" => Verb::Count,
        "hist" => (names.category(words.next()?)? == 0).then_some(Verb::Hist)?,
        "map" => Verb::Map(words.next()?.parse().ok()?),
        "series" => Verb::Series(words.next()?.parse().ok()?, words.next()?.parse().ok()?, words.next()?.parse().ok()?),
        "cross" => ((names.category(words.next()?)?, names.category(words.next()?)?) == (0, 1)).then_some(Verb::Cross)?,
        _ => return None,
    };
    let mut query = Query { verb, tile: (0, 0, 0), kind: None, from: 0, to: 1 << 32 };
    while let Some(word) = words.next() {
        match word {
            "in" => {
                let mut parts = words.next()?.split('/');
                query.tile = (parts.next()?.parse().ok()?, parts.next()?.parse().ok()?, parts.next()?.parse().ok()?);
            }
            "with" => {
                let (name, value) = words.next()?.split_once('=')?;
                let values = names.values(names.category(name).filter(|it| *it == 0)?);
                query.kind = Some(values.iter().position(|it| it == value)? as u8);
            }
            "time" => (query.from, query.to) = (words.next()?.parse().ok()?, words.next()?.parse().ok()?),
            _ => return None,
        }
    }
    Some(query)
}

/// Answers a query into the text, which it empties first.
fn answer(cube: &Cube, names: &Names, records: u32, query: &Query, text: &mut String) {
    let (z, x, y) = query.tile;
    let node = cube.tile(z, x, y);
    let total = |kind, from, to| node.map_or(0, |node| cube.total_at(node, kind, from, to));
    text.clear();
    text.push_str("{\"rows\":[");
    let mut first = true;
    let mut row = |text: &mut String, row: std::fmt::Arguments| {
        text.push_str(if std::mem::take(&mut first) { "" } else { "," });
        text.write_fmt(row).unwrap();
    };
    match query.verb {
        Verb::Count => row(text, format_args!("[{}]", total(query.kind, query.from, query.to))),
        Verb::Hist => {
            for (kind, name) in names.values(0).iter().enumerate() {
                row(text, format_args!("[\"{name}\",{}]", total(Some(kind as u8), query.from, query.to)));
            }
        }
        Verb::Map(down) => {
            let mut rows = Vec::new();
            node.into_iter().for_each(|node| cube.map(node, down, z, x, y, &mut rows));
            rows.iter().for_each(|(z, x, y, n)| row(text, format_args!("[{z},{x},{y},{n}]")));
        }
        Verb::Series(from, wide, rows) => (0..rows).for_each(|k| {
            let start = from + k * wide;
            row(text, format_args!("[{start},{}]", total(query.kind, start, start + wide)));
        }),
        Verb::Cross => {
            for (kind, name) in names.values(0).iter().enumerate() {
                for (side, other) in names.values(1).iter().enumerate() {
                    let n = node.map_or(0, |node| cube.total_of_pair(node, kind as u8, side as u8, query.from, query.to));
                    row(text, format_args!("[\"{name}\",\"{other}\",{n}]"));
                }
            }
        }
    }
    write!(text, "],\"seen\":{records}}}\n").unwrap();
}

/// Reads, answers and prints the lines.
fn serve(name: &str, cube: &Cube, names: &Names, records: u32, lines: &[String]) {
    let (mut text, mut bytes) = (String::new(), 0);
    let start = Instant::now();
    for line in lines {
        answer(cube, names, records, &read(names, line).unwrap(), &mut text);
        bytes += text.len();
    }
    println!("{name}: {:.2} us each ({bytes})", start.elapsed().as_secs_f64() * 1e6 / lines.len() as f64);
}

fn count_lines() -> Vec<String> {
    let mut s = 77u64;
    let line = |_| {
        s = step(s);
        let (x, y, kind, from) = ((s >> 54) % 16, (s >> 44) % 16, ["a", "b", "c", "d"][((s >> 42) % 4) as usize], (s >> 32) % 512);
        format!("count in 4/{x}/{y} with kind={kind} time {from} {}", from + 400)
    };
    (0..20_000).map(line).collect()
}

fn answers(cube: &Cube, names: &Names, records: u32) {
    let lines = count_lines();
    let queries: Vec<Query> = lines.iter().map(|line| read(names, line).unwrap()).collect();
    let start = Instant::now();
    let mut sum = 0;
    for query in &queries {
        let (z, x, y) = query.tile;
        sum += cube.tile(z, x, y).map_or(0, |node| cube.total_at(node, query.kind, query.from, query.to));
    }
    println!("count without line and text: {:.0} ns each ({sum})", start.elapsed().as_secs_f64() * 1e9 / queries.len() as f64);
    serve("count", cube, names, records, &lines);
    serve("map 6", cube, names, records, &vec!["map 6".to_string(); 20]);
    serve("series 0 1 1000", cube, names, records, &vec!["series 0 1 1000".to_string(); 20]);
    serve("hist kind", cube, names, records, &vec!["hist kind".to_string(); 1000]);
}

/// The cube of the lines of a file of numbers.
fn cube_of(depth: usize, numbers: &str) -> (Cube, u32) {
    let (mut cube, mut records) = (Cube::new(), 0);
    for line in BufReader::new(File::open(numbers).unwrap()).lines() {
        let fields: Vec<u32> = line.unwrap().split(',').map(|it| it.parse().unwrap()).collect();
        let values: Vec<u8> = fields[2..fields.len() - 1].iter().map(|it| *it as u8).collect();
        cube.insert(&point(depth, fields[0], fields[1], &values, fields[fields.len() - 1]));
        records += 1;
    }
    (cube, records)
}

/// Reads, answers and prints the lines of a script.
fn run_script(cube: &Cube, names: &Names, records: u32, script: &str) -> io::Result<()> {
    let (mut out, mut text) = (io::stdout().lock(), String::new());
    for line in BufReader::new(File::open(script)?).lines() {
        answer(cube, names, records, &read(names, &line?).unwrap(), &mut text);
        out.write_all(text.as_bytes())?;
    }
    Ok(())
}

/// Records of two kinds: insertion and replies.
fn run_kinds(records: u32) {
    let kind = || "kind=a|b|c|d".to_string();
    let names = Names::of([kind(), "side=l|r".to_string()].into_iter());
    serve("cross kind side", &filled("city", records, city), &names, records, &vec!["cross kind side".to_string(); 1000]);
    answers(&filled("generated", records, generated), &Names::of([kind()].into_iter()), records);
}

fn main() {
    let mut words = std::env::args().skip(1);
    let number = words.next().map(|n| n.parse().unwrap());
    match (number, words.next(), words.next()) {
        (Some(depth), Some(numbers), Some(script)) => {
            let names = Names::of(words);
            let (cube, records) = cube_of(depth as usize, &numbers);
            let begun = busy();
            run_script(&cube, &names, records, &script).unwrap();
            eprintln!("{}", busy() - begun);
        }
        (records, ..) => records.map_or(vec![20_000, 200_000], |n| vec![n]).into_iter().for_each(run_kinds),
    }
}
