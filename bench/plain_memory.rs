//! What `memory_bench` does, by std's ordered map: the same keys in the same order.
//!
//! Words: `find SIZE TIMES` or `put SIZE TIMES`.

use std::collections::BTreeMap;
use std::env;
use std::process::ExitCode;

const DIGITS: [u8; 16] = *b"0123456789abcdef";

/// The key of a number: its 16 digits, the first of the highest place.
fn key_of(number: u64) -> Vec<u8> {
    let mut key = [0; 16];
    let mut left = number;
    for digit in key.iter_mut().rev() {
        *digit = DIGITS[(left % 16) as usize];
        left /= 16;
    }
    key.to_vec()
}

fn number_at(place: u32, size: u32) -> u64 {
    (u64::MAX / u64::from(size)).wrapping_mul(u64::from(place))
}

fn next_place(place: u32, size: u32) -> u32 {
    ((u64::from(place) * 1_664_521 + 1_013_904_223) % u64::from(size)) as u32
}

fn find_all(size: u32, times: u32) -> u64 {
    let mut map = BTreeMap::new();
    let mut keys = Vec::new();
    for place in 0..size {
        let key = key_of(number_at(place, size));
        map.insert(key.clone(), place / 64);
        keys.push(key);
    }
    let mut sum: u64 = 0;
    let mut place = 0;
    for _ in 0..times {
        place = next_place(place, size);
        if let Some(leaf) = map.get(keys[place as usize].as_slice()) {
            sum = sum.wrapping_add(u64::from(*leaf));
        }
    }
    sum
}

fn put_all(size: u32, times: u32) -> u64 {
    let mut map = BTreeMap::new();
    let mut new = 0;
    let mut place = 0;
    for _ in 0..times {
        place = next_place(place, size);
        if map.len() == size as usize {
            map.clear();
        }
        let key = key_of(number_at(place, size));
        if map.insert(key, b"0123456789abcdef".to_vec()).is_none() {
            new += 1;
        }
    }
    new
}

fn main() -> ExitCode {
    let words: Vec<String> = env::args().skip(1).collect();
    let [work, size, times] = words.as_slice() else {
        return ExitCode::from(2);
    };
    let (Ok(size), Ok(times)) = (size.parse(), times.parse()) else {
        return ExitCode::from(2);
    };
    let sum = match work.as_str() {
        "find" => find_all(size, times),
        "put" => put_all(size, times),
        _ => return ExitCode::from(2),
    };
    println!("{sum}");
    ExitCode::from(0)
}
