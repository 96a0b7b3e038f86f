//! What `index_bench` does, by plain structures over the same pairs.
//!
//! Words: FORM WORK RUNS PAIRS TIMES ROWS.
//!
//! | Form | What it is |
//! |---|---|
//! | `tree` | one `BTreeMap` of the merged rows, filled with one run after the other, the oldest first |
//! | `vector` | one sorted `Vec` of the same rows, and a binary search |
//! | `heap` | a sorted `Vec` for each run, a binary search in each, and a heap of cursors |
//!
//! Work `seek` reads rows from random keys on. Work `build`, of `heap` alone, merges all runs and writes down the
//! order.

use std::cmp::Ordering;
use std::collections::{BTreeMap, BinaryHeap};
use std::env;
use std::ops::Bound;
use std::process::ExitCode;

type Pair = (Vec<u8>, Vec<u8>);

const VALUE_LEN: usize = 100;

fn key_from(number: u64) -> [u8; 16] {
    let bytes = number.to_be_bytes();
    let mut key = [0; 16];
    key[..8].copy_from_slice(&bytes);
    key[8..].copy_from_slice(&bytes);
    key
}

fn key_of(place: u64, keys: u64) -> [u8; 16] {
    key_from((u64::MAX / keys).wrapping_mul(place))
}

fn mixed(number: u64) -> u64 {
    let once = (number ^ (number >> 30)).wrapping_mul(0xBF58_476D_1CE4_E5B9);
    let twice = (once ^ (once >> 27)).wrapping_mul(0x94D0_49BB_1331_11EB);
    twice ^ (twice >> 31)
}

fn is_in(place: u64, run: u64, runs: u64) -> bool {
    let drawn = mixed(place.wrapping_add(1));
    let first = drawn % runs;
    run == first || ((drawn >> 32) % 10 == 0 && run == (first + 1) % runs)
}

fn made_pair(place: u64, run: u64, keys: u64) -> Pair {
    let filled = (place as u8).wrapping_add(run as u8);
    (key_of(place, keys).to_vec(), vec![filled; VALUE_LEN])
}

fn made_run(run: u64, runs: u64, keys: u64) -> Vec<Pair> {
    let places = (0..keys).filter(|place| is_in(*place, run, runs));
    places.map(|place| made_pair(place, run, keys)).collect()
}

/// The rows of all runs as they come, the oldest run first: the newest run's stays.
fn made_tree(runs: u64, keys: u64) -> BTreeMap<Vec<u8>, Vec<u8>> {
    let mut tree = BTreeMap::new();
    for run in (0..runs).rev() {
        tree.extend(made_run(run, runs, keys));
    }
    tree
}

/// The last byte of the key, the first of the value, and their lengths.
fn sum_of_row(key: &[u8], value: &[u8]) -> u64 {
    let ends = u64::from(*key.last().unwrap_or(&0)) + u64::from(*value.first().unwrap_or(&0));
    ends + key.len() as u64 + value.len() as u64
}

fn sum_of_tree(tree: &BTreeMap<Vec<u8>, Vec<u8>>, key: &[u8], rows: usize) -> u64 {
    let from = (Bound::Included(key), Bound::Unbounded);
    let rows = tree.range::<[u8], _>(from).take(rows);
    rows.map(|(key, value)| sum_of_row(key, value)).sum()
}

fn sum_of_vector(pairs: &[Pair], key: &[u8], rows: usize) -> u64 {
    let first = pairs.partition_point(|pair| pair.0.as_slice() < key);
    let rows = pairs[first..].iter().take(rows);
    rows.map(|(key, value)| sum_of_row(key, value)).sum()
}

/// Where a run is read: its number, and what is left of it.
struct Cursor<'a> {
    run: usize,
    left: &'a [Pair],
}

impl Cursor<'_> {
    fn key(&self) -> &[u8] {
        &self.left[0].0
    }
}

impl PartialEq for Cursor<'_> {
    fn eq(&self, other: &Self) -> bool {
        self.cmp(other) == Ordering::Equal
    }
}

impl Eq for Cursor<'_> {}

impl PartialOrd for Cursor<'_> {
    fn partial_cmp(&self, other: &Self) -> Option<Ordering> {
        Some(self.cmp(other))
    }
}

// The heap has the greatest on top, so the least key and then the newest run is the greatest.
impl Ord for Cursor<'_> {
    fn cmp(&self, other: &Self) -> Ordering {
        other.key().cmp(self.key()).then(other.run.cmp(&self.run))
    }
}

fn cursors<'a>(runs: &'a [Vec<Pair>], key: &[u8]) -> BinaryHeap<Cursor<'a>> {
    let mut heap = BinaryHeap::with_capacity(runs.len());
    for (run, pairs) in runs.iter().enumerate() {
        let first = pairs.partition_point(|pair| pair.0.as_slice() < key);
        if first < pairs.len() {
            heap.push(Cursor { run, left: &pairs[first..] });
        }
    }
    heap
}

/// Moves the first cursor on, and gives the run and the pair that it stood at.
fn step<'a>(heap: &mut BinaryHeap<Cursor<'a>>) -> Option<(usize, &'a Pair)> {
    let mut top = heap.peek_mut()?;
    let run = top.run;
    let left = top.left;
    if left.len() == 1 {
        std::collections::binary_heap::PeekMut::pop(top);
    } else {
        top.left = &left[1..];
    }
    Some((run, &left[0]))
}

fn sum_of_heap(runs: &[Vec<Pair>], key: &[u8], rows: usize) -> u64 {
    let mut heap = cursors(runs, key);
    let mut last: &[u8] = &[];
    let mut left = rows;
    let mut sum = 0;
    while left > 0 {
        let Some((_, pair)) = step(&mut heap) else {
            return sum;
        };
        if pair.0.as_slice() != last {
            sum += sum_of_row(&pair.0, &pair.1);
            last = &pair.0;
            left -= 1;
        }
    }
    sum
}

/// All runs merged, and for each pair its run, marked where the key before is the same.
fn order_of(runs: &[Vec<Pair>]) -> Vec<u8> {
    let mut heap = cursors(runs, &[]);
    let mut order = Vec::new();
    let mut last: &[u8] = &[];
    while let Some((run, pair)) = step(&mut heap) {
        let old = pair.0.as_slice() == last;
        order.push(run as u8 + if old { 0x80 } else { 0 });
        last = &pair.0;
    }
    order
}

fn sum_of_seeks(times: u32, one: impl Fn(&[u8]) -> u64) -> u64 {
    (0..times).map(|time| one(&key_from(mixed(u64::from(time))))).sum()
}

fn sum_of(words: &[String]) -> Option<u64> {
    let [form, work, runs, pairs, times, rows] = words else {
        return None;
    };
    let (runs, pairs) = (runs.parse::<u64>().ok()?, pairs.parse::<u64>().ok()?);
    let (times, rows) = (times.parse::<u32>().ok()?, rows.parse::<usize>().ok()?);
    let keys = runs * pairs * 10 / 11 + 1;
    let all = || (0..runs).map(|run| made_run(run, runs, keys)).collect::<Vec<_>>();
    match (form.as_str(), work.as_str()) {
        ("tree", "seek") => {
            let tree = made_tree(runs, keys);
            Some(sum_of_seeks(times, |key| sum_of_tree(&tree, key, rows)))
        }
        ("vector", "seek") => {
            let pairs: Vec<Pair> = made_tree(runs, keys).into_iter().collect();
            Some(sum_of_seeks(times, |key| sum_of_vector(&pairs, key, rows)))
        }
        ("heap", "seek") => {
            let runs = all();
            Some(sum_of_seeks(times, |key| sum_of_heap(&runs, key, rows)))
        }
        ("heap", "build") => {
            let runs = all();
            Some((0..times).map(|_| order_of(&runs).len() as u64).sum())
        }
        _ => None,
    }
}

fn main() -> ExitCode {
    let words: Vec<String> = env::args().skip(1).collect();
    match sum_of(&words) {
        Some(sum) => {
            println!("{sum}");
            ExitCode::from(0)
        }
        None => ExitCode::from(2),
    }
}
