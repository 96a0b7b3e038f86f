//! What `merge_bench` does, by a heap of cursors over the same pairs, and by a plain plan.
//!
//! The same words, and the same sums. Each merge makes owned rows: the newest pair of each key, copied into a vector, which
//! has no room to spare after it. There is no deletion among the pairs.

use std::cmp::Ordering;
use std::collections::binary_heap::PeekMut;
use std::collections::BinaryHeap;
use std::env;
use std::process::ExitCode;

type Pair = (Vec<u8>, Vec<u8>);

const VALUE_LEN: usize = 100;

fn key_from(number: u64) -> Vec<u8> {
    let bytes = number.to_be_bytes();
    [bytes, bytes].concat()
}

fn mixed(number: u64) -> u64 {
    let once = (number ^ (number >> 30)).wrapping_mul(0xBF58_476D_1CE4_E5B9);
    let twice = (once ^ (once >> 27)).wrapping_mul(0x94D0_49BB_1331_11EB);
    twice ^ (twice >> 31)
}

fn is_in(place: u64, run: u64, runs: u64) -> bool {
    let drawn = mixed(place.wrapping_add(1));
    let first = drawn % runs;
    run == first || ((drawn >> 32) % 10 == 0 && run == (first + 1) % runs)
}

fn made_pair(place: u64, places: u64, above: u64, byte: u8) -> Pair {
    let number = (u64::MAX / places).wrapping_mul(place).wrapping_add(above);
    (key_from(number), vec![(place as u8).wrapping_add(byte); VALUE_LEN])
}

fn made_run(run: u64, runs: u64, keys: u64) -> Vec<Pair> {
    let places = (0..keys).filter(|place| is_in(*place, run, runs));
    places.map(|place| made_pair(place, keys, 0, run as u8)).collect()
}

fn made_new(keys: u64, new: u64) -> Vec<Pair> {
    let apart = keys / new.max(1);
    (0..new).map(|place| made_pair(place * apart, keys, place % 2, 9)).collect()
}

/// Where a run is read: its number, and what is left of it.
struct Cursor<'a> {
    run: usize,
    left: &'a [Pair],
}

impl PartialEq for Cursor<'_> {
    fn eq(&self, other: &Self) -> bool {
        self.cmp(other) == Ordering::Equal
    }
}

impl Eq for Cursor<'_> {}

impl PartialOrd for Cursor<'_> {
    fn partial_cmp(&self, other: &Self) -> Option<Ordering> {
        Some(self.cmp(other))
    }
}

// The heap has the greatest on top, so the least key and then the newest run is the greatest.
impl Ord for Cursor<'_> {
    fn cmp(&self, other: &Self) -> Ordering {
        other.left[0].0.cmp(&self.left[0].0).then(other.run.cmp(&self.run))
    }
}

/// Moves the first cursor on, and gives the pair that it stood at.
fn step<'a>(heap: &mut BinaryHeap<Cursor<'a>>) -> Option<&'a Pair> {
    let mut top = heap.peek_mut()?;
    let left = top.left;
    if left.len() == 1 {
        PeekMut::pop(top);
    } else {
        top.left = &left[1..];
    }
    Some(&left[0])
}

/// The newest pair of each key, copied. The first run is the newest.
fn merged(runs: &[Vec<Pair>]) -> Vec<Pair> {
    let cursors = runs.iter().enumerate().filter(|(_, pairs)| !pairs.is_empty());
    let mut heap: BinaryHeap<Cursor<'_>> = cursors.map(|(run, left)| Cursor { run, left }).collect();
    let mut rows: Vec<Pair> = Vec::new();
    while let Some(pair) = step(&mut heap) {
        if rows.last().map_or(true, |last| last.0 != pair.0) {
            rows.push(pair.clone());
        }
    }
    rows
}

/// The sum of the rows and of their sizes.
fn sum_of_rows(rows: &[Pair]) -> u64 {
    rows.iter().map(|(key, value)| 7 + key.len() as u64 + value.len() as u64).sum()
}

fn rows_of(runs: &[Vec<Pair>]) -> Vec<Pair> {
    let mut rows = merged(runs);
    rows.shrink_to_fit();
    rows
}

fn sum_of_merges(words: &[String], hold: bool) -> Option<u64> {
    let [runs, keys, new, times] = words else {
        return None;
    };
    let (runs, keys) = (runs.parse::<u64>().ok()?, keys.parse::<u64>().ok()?);
    let (new, times) = (new.parse::<u64>().ok()?, times.parse::<u32>().ok()?);
    let mut all = vec![made_new(keys, new)];
    all.extend((0..runs).map(|run| made_run(run, runs, keys)));
    if !hold {
        return Some((0..times).map(|_| sum_of_rows(&rows_of(&all))).sum());
    }
    let held: Vec<Vec<Pair>> = (0..times).map(|_| rows_of(&all)).collect();
    Some(held.iter().map(|rows| sum_of_rows(rows)).sum())
}

/// The numbers of a member, which look random: new data, age, runs, what these hold, and the rows after a major compaction.
fn member(place: u64) -> (u64, u64, u64, u64, u64) {
    let drawn = (place + 1).wrapping_mul(0x9E37_79B9_7F4A_7C15);
    let new = (drawn >> 40) % 200_000;
    (new, (drawn >> 20) % 8, (drawn >> 30) % 10, (drawn >> 10) % 5_000_000, (drawn >> 5) % 5_000_000)
}

/// How many splits into two a plan has, of a store of 100 partitions.
fn splits(members: &[(u64, u64, u64, u64, u64)], may_abort: bool) -> u64 {
    let (mut kept, mut splits) = (0, 0);
    for &(new, age, runs, held, merged) in members {
        if may_abort && new < 65_536 && kept + new <= 1_048_576 && age <= 5 {
            kept += new;
        } else if (runs >= 8 || held + new > 4_194_304) && merged > 4_194_304 && 100 + splits + 1 <= 4_096 {
            splits += 1;
        }
    }
    splits
}

fn sum_of_plans(words: &[String]) -> Option<u64> {
    let [members, times] = words else {
        return None;
    };
    let members: Vec<_> = (0..members.parse::<u64>().ok()?).map(member).collect();
    Some((0..times.parse::<u32>().ok()?).map(|time| splits(&members, time % 2 == 0)).sum())
}

fn main() -> ExitCode {
    let words: Vec<String> = env::args().skip(1).collect();
    let sum = match words.split_first() {
        Some((work, numbers)) if work == "merge" => sum_of_merges(numbers, false),
        Some((work, numbers)) if work == "hold" => sum_of_merges(numbers, true),
        Some((work, numbers)) if work == "plan" => sum_of_plans(numbers),
        _ => None,
    };
    match sum {
        Some(sum) => {
            println!("{sum}");
            ExitCode::from(0)
        }
        None => ExitCode::from(2),
    }
}
