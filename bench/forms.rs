//! Insertions into Howell forms, and the laws of forms told: the proved library beside plain Rust that does the same, on the
//! same rows, in turn, in one run. Prints how many of each are done in a second, and the ratio of the times.
use std::hint::black_box;
use std::time::{Duration, Instant};

mod plain;
mod proved;

/// Random numbers (xorshift), the same in every run.
struct Random(u64);

impl Random {
    fn next(&mut self) -> u64 {
        self.0 ^= self.0 << 13;
        self.0 ^= self.0 >> 7;
        self.0 ^= self.0 << 17;
        self.0
    }
}

/// Rows of `n` words: any words, or words most of which are even, so that forms change often.
fn random_rows(random: &mut Random, n: usize, count: usize, even: bool) -> Vec<u32> {
    (0..n * count)
        .map(|_| {
            let x = random.next();
            if even {
                (x as u32) << ((x >> 32) % 32)
            } else {
                x as u32
            }
        })
        .collect()
}

/// Memory for one form: the table, a copy of the row, the places that changed, and rows for its laws.
struct Memory {
    work: Vec<u32>,
    row: Vec<u32>,
    changed: Vec<usize>,
    laws: Vec<u32>,
}

impl Memory {
    fn new(n: usize) -> Self {
        Memory {
            work: vec![0; n * n],
            row: vec![0; n],
            changed: vec![0; n],
            laws: vec![0; n * n],
        }
    }
}

type Clear = fn(&mut [u32], usize, usize) -> bool;
type Insert = fn(&mut [u32], usize, &mut [u32], &mut [usize]) -> Option<usize>;
type Tell = fn(&[u32], usize, usize, &mut [u32]) -> Option<usize>;

/// All rows inserted into an empty table, one after the other; how many rows of the table changed in all.
fn insert_all(clear: Clear, insert: Insert, memory: &mut Memory, rows: &[u32]) -> usize {
    let n = memory.row.len();
    assert!(clear(&mut memory.work, 0, n));
    let mut changes = 0;
    for row in rows.chunks_exact(n) {
        memory.row.copy_from_slice(row);
        changes +=
            insert(&mut memory.work, 0, &mut memory.row, &mut memory.changed).expect("the table fits in");
    }
    changes
}

/// The times of two jobs, done in turn, so that both see the same machine: the middle one of many each.
fn race(mut first: impl FnMut(), mut second: impl FnMut()) -> (Duration, Duration) {
    let mut times = (Vec::new(), Vec::new());
    let begin = Instant::now();
    while begin.elapsed() < Duration::from_millis(1500) || times.0.len() < 5 {
        let start = Instant::now();
        first();
        let middle = Instant::now();
        second();
        times.0.push(middle - start);
        times.1.push(middle.elapsed());
    }
    times.0.sort();
    times.1.sort();
    (times.0[times.0.len() / 2], times.1[times.1.len() / 2])
}

fn report(what: &str, jobs: usize, (ours, theirs): (Duration, Duration)) {
    let rate = |time: Duration| jobs as f64 / time.as_secs_f64();
    println!(
        "{what:34}{:>14.0}{:>14.0}{:>10.2}",
        rate(ours),
        rate(theirs),
        ours.as_secs_f64() / theirs.as_secs_f64()
    );
}

fn main() {
    println!(
        "{:34}{:>14}{:>14}{:>10}",
        "a second", "proved", "plain Rust", "times"
    );
    let mut random = Random(0x9e37_79b9_7f4a_7c15);
    for (n, even) in [(17, false), (17, true), (65, false), (65, true)] {
        let count = 8 * n;
        let rows = random_rows(&mut random, n, count, even);
        let (mut ours, mut theirs) = (Memory::new(n), Memory::new(n));
        let changes = insert_all(proved::clear, proved::insert, &mut ours, &rows);
        assert_eq!(
            changes,
            insert_all(plain::clear, plain::insert, &mut theirs, &rows)
        );
        assert_eq!(ours.work, theirs.work, "the tables differ");
        let kind = if even { "many even" } else { "dense" };

        let times = race(
            || {
                black_box(insert_all(
                    proved::clear,
                    proved::insert,
                    &mut ours,
                    black_box(&rows),
                ));
            },
            || {
                black_box(insert_all(
                    plain::clear,
                    plain::insert,
                    &mut theirs,
                    black_box(&rows),
                ));
            },
        );
        report(&format!("rows of {n} inserted, {kind}"), count, times);

        // a form of half as many rows as places has many laws
        insert_all(proved::clear, proved::insert, &mut ours, &rows[..n / 2 * n]);
        insert_all(plain::clear, plain::insert, &mut theirs, &rows[..n / 2 * n]);
        let told = proved::tell(&ours.work, 0, n, &mut ours.laws);
        assert_eq!(told, plain::tell(&theirs.work, 0, n, &mut theirs.laws));
        assert_eq!(ours.laws, theirs.laws, "the laws differ");
        let times = race(
            || {
                tell_often(proved::tell, &mut ours, n);
            },
            || {
                tell_often(plain::tell, &mut theirs, n);
            },
        );
        report(&format!("forms of {n} places told, {kind}"), TOLD, times);
    }
}

/// How often a form is told in one job.
const TOLD: usize = 20;

fn tell_often(tell: Tell, memory: &mut Memory, n: usize) {
    for _ in 0..TOLD {
        black_box(tell(black_box(&memory.work), 0, n, &mut memory.laws));
    }
}
