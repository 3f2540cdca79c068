//! Times how long replies of a live run take to count a record, and never sleeps: `live_times.py latency --prober PROBER` starts
//! it on a processor of its own. The script's own prober sleeps until a reply has come, and its wake is in each of its times.
//! Built by `rustc -O --edition 2021 prober.rs`: `prober FEED ASK REPLIES RECORD LINE SECONDS PAUSE`. FEED, ASK and REPLIES are
//! descriptors of pipes, RECORD and LINE what it writes, and PAUSE the longest pause between two records, in milliseconds. It
//! prints the nanoseconds from each record written to the reply that counts it.
use std::fs::File;
use std::io::{Read, Write};
use std::os::fd::{AsRawFd, FromRawFd};
use std::time::{Duration, Instant};

#[repr(C)]
struct PollFd {
    descriptor: i32,
    events: i16,
    returned: i16,
}

const POLLIN: i16 = 1;

unsafe extern "C" {
    fn poll(descriptors: *mut PollFd, count: u64, milliseconds: i32) -> i32;
}

/// The other ends of a run.
struct Ends {
    feed: File,
    ask: File,
    replies: File,
}

impl Ends {
    fn of(descriptors: &[String]) -> Ends {
        // The script hands the three on, and uses them no more while this runs.
        let open = |place: usize| unsafe { File::from_raw_fd(descriptors[place].parse().unwrap()) };
        Ends {
            feed: open(0),
            ask: open(1),
            replies: open(2),
        }
    }

    /// Asks a line, and tries until the reply is there. The one number in its rows.
    fn count(&mut self, line: &[u8]) -> u64 {
        self.ask.write_all(line).unwrap();
        let mut waited = PollFd {
            descriptor: self.replies.as_raw_fd(),
            events: POLLIN,
            returned: 0,
        };
        while unsafe { poll(&mut waited, 1, 0) } == 0 {}
        let mut reply = [0; 4096];
        // A reply is one put.
        let length = self.replies.read(&mut reply).unwrap();
        let digits = reply[10..length]
            .iter()
            .take_while(|byte| byte.is_ascii_digit());
        digits.fold(0, |number, digit| 10 * number + u64::from(digit - b'0'))
    }
}

/// Lets a time pass without a sleep.
fn pass(time: Duration) {
    let begun = Instant::now();
    while begun.elapsed() < time {
        std::hint::spin_loop();
    }
}

/// A time up to so many milliseconds, by xorshift.
fn up_to(milliseconds: f64, state: &mut u64) -> Duration {
    *state ^= *state << 13;
    *state ^= *state >> 7;
    *state ^= *state << 17;
    Duration::from_secs_f64(milliseconds / 1000.0 * (*state >> 11) as f64 / (1u64 << 53) as f64)
}

fn main() {
    let words: Vec<String> = std::env::args().skip(1).collect();
    let mut ends = Ends::of(&words[..3]);
    let (record, line) = (words[3].as_bytes(), words[4].as_bytes());
    let end = Instant::now() + Duration::from_secs_f64(words[5].parse().unwrap());
    let (pause, mut state) = (words[6].parse().unwrap(), 88172645463325252);
    let mut times = Vec::new();
    while Instant::now() < end {
        let begun = Instant::now();
        ends.feed.write_all(record).unwrap();
        while ends.count(line) <= times.len() as u64 && begun.elapsed() < Duration::from_secs(10) {}
        times.push(begun.elapsed().as_nanos());
        pass(up_to(pause, &mut state));
    }
    for time in &times {
        println!("{time}");
    }
}
