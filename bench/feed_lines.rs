//! The points of a feed in plain Rust, by the crate `csv`, with one reader and one record for the whole file. A row is
//! refused for what `feed_reader` refuses it for. It prints how many points there are and the sum of their numbers.
//! Built by `cargo build --release` in a package that depends on `csv` 1: `feed_lines FEED`.
use csv::{ByteRecord, ReaderBuilder};

const TILES: u64 = 1 << 3;
const KINDS: [&[u8]; 2] = [b"a", b"b"];
const BIN_WIDTH: u64 = 10;

struct Point {
    x: u32,
    y: u32,
    kind: u32,
    bin: u32,
}

fn decimal(field: &[u8]) -> Option<u64> {
    if field.is_empty() || field.len() > 20 || !field.iter().all(u8::is_ascii_digit) {
        return None;
    }
    std::str::from_utf8(field).ok()?.parse().ok()
}

fn point(record: &ByteRecord, places: &[usize; 4]) -> Option<Point> {
    let x = decimal(record.get(places[0])?)?;
    let y = decimal(record.get(places[1])?)?;
    let time = decimal(record.get(places[2])?)?;
    if x >= TILES || y >= TILES {
        return None;
    }
    let field = record.get(places[3])?;
    let kind = KINDS.iter().position(|value| *value == field)? as u32;
    let bin = u32::try_from(time / BIN_WIDTH).ok()?;
    Some(Point { x: x as u32, y: y as u32, kind, bin })
}

fn main() {
    let path = std::env::args().nth(1).expect("a feed");
    let file = std::fs::File::open(path).expect("it opens");
    let mut reader = ReaderBuilder::new().has_headers(false).flexible(true).from_reader(file);
    let mut record = ByteRecord::new();
    assert!(reader.read_byte_record(&mut record).expect("a header"));
    let place = |name: &[u8]| record.iter().position(|field| field == name).expect("a column");
    let places = [place(b"x"), place(b"y"), place(b"time"), place(b"kind")];
    let (mut points, mut sum) = (0u64, 0u64);
    while reader.read_byte_record(&mut record).expect("a row") {
        if let Some(p) = point(&record, &places) {
            points += 1;
            sum += u64::from(p.x + 2 * p.y + 3 * p.kind) + u64::from(p.bin);
        }
    }
    println!("{points} {sum}");
}
