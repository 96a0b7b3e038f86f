//! What `switch_bench` does, by std's ordered map under a `RwLock`: the same anchors, and the same keys in the same order.
//!
//! Words: WORK READERS TIMES, where the work is `enter`, `beside`, `append` or `publish`. An append and a publish are
//! one insertion under the lock.

use std::collections::BTreeMap;
use std::env;
use std::ops::Bound;
use std::process::ExitCode;
use std::sync::atomic::{AtomicBool, Ordering};
use std::sync::RwLock;
use std::thread;
use std::time::Duration;

const DIGITS: [u8; 16] = *b"0123456789abcdef";
const SIZE: u32 = 64_000;
const LEAF_KEYS: u32 = 64;
const ANCHORS: u32 = 999;

type Map = RwLock<BTreeMap<Vec<u8>, u32>>;

/// The key of a number: its 16 digits, the first of the highest place.
fn key_of(number: u64) -> Vec<u8> {
    let mut key = [0; 16];
    let mut left = number;
    for digit in key.iter_mut().rev() {
        *digit = DIGITS[(left % 16) as usize];
        left /= 16;
    }
    key.to_vec()
}

fn number_at(place: u32) -> u64 {
    (u64::MAX / u64::from(SIZE)).wrapping_mul(u64::from(place))
}

fn next_place(place: u32) -> u32 {
    ((u64::from(place) * 1_664_521 + 1_013_904_223) % u64::from(SIZE)) as u32
}

/// The shortest front of the key at a place that is above the key before.
fn anchor_at(place: u32) -> Vec<u8> {
    let before = key_of(number_at(place - 1));
    let key = key_of(number_at(place));
    let common = before.iter().zip(&key).take_while(|(a, b)| a == b).count();
    key[..=common].to_vec()
}

/// The anchors of the leaves of 64 keys, or those in the middle of each.
fn anchors(shift: u32) -> Vec<Vec<u8>> {
    (1..=ANCHORS).map(|number| anchor_at(number * LEAF_KEYS + shift)).collect()
}

fn leaf_of(map: &Map, key: &[u8]) -> u32 {
    let map = map.read().unwrap();
    let upto = (Bound::Unbounded, Bound::Included(key));
    map.range::<[u8], _>(upto).next_back().map_or(0, |(_, leaf)| *leaf)
}

fn found(map: &Map, keys: &[Vec<u8>], times: u32) -> u64 {
    let mut sum: u64 = 0;
    let mut place = 0;
    for _ in 0..times {
        place = next_place(place);
        sum = sum.wrapping_add(u64::from(leaf_of(map, &keys[place as usize])));
    }
    sum
}

fn insert(map: &Map, anchor: &[u8], leaf: usize) {
    map.write().unwrap().insert(anchor.to_vec(), leaf as u32);
}

fn first_map() -> Map {
    let map = RwLock::new(BTreeMap::new());
    for (leaf, anchor) in anchors(0).iter().enumerate() {
        insert(&map, anchor, leaf);
    }
    map
}

fn read_all(readers: u32, times: u32, beside: bool) -> u64 {
    let more = anchors(LEAF_KEYS / 2);
    let map = first_map();
    let keys: Vec<Vec<u8>> = (0..SIZE).map(|place| key_of(number_at(place))).collect();
    let done = AtomicBool::new(false);
    thread::scope(|scope| {
        if beside {
            scope.spawn(|| {
                for (leaf, anchor) in more.iter().enumerate() {
                    if done.load(Ordering::SeqCst) {
                        return;
                    }
                    insert(&map, anchor, leaf);
                    thread::sleep(Duration::from_millis(1));
                }
            });
        }
        let readers: Vec<_> =
            (0..readers).map(|_| scope.spawn(|| found(&map, &keys, times))).collect();
        let sum = readers.into_iter().fold(0_u64, |sum, reader| {
            sum.wrapping_add(reader.join().unwrap())
        });
        done.store(true, Ordering::SeqCst);
        sum
    })
}

fn write_all(times: u32) -> u64 {
    let more = anchors(LEAF_KEYS / 2);
    let map = first_map();
    let mut count = 0;
    for (anchor, _) in more.iter().zip(0..times) {
        insert(&map, anchor, count as usize);
        count += 1;
    }
    count
}

fn main() -> ExitCode {
    let words: Vec<String> = env::args().skip(1).collect();
    let [work, readers, times] = words.as_slice() else {
        return ExitCode::from(2);
    };
    let (Ok(readers), Ok(times)) = (readers.parse(), times.parse()) else {
        return ExitCode::from(2);
    };
    let sum = match work.as_str() {
        "enter" => read_all(readers, times, false),
        "beside" => {
            read_all(readers, times, true);
            u64::from(readers)
        }
        "append" | "publish" => write_all(times),
        _ => return ExitCode::from(2),
    };
    println!("{sum}");
    ExitCode::from(0)
}
