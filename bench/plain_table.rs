//! What `table_bench` does, in plain Rust: the same bytes, the same tests, a plain SHA-256.
//!
//! Words: WORK PAIRS VALUE_LEN TIMES, where the work is `build`, `hash`, `open` or `read`.

use std::env;
use std::process::ExitCode;

const UNIT: usize = 4096;
const KEY_MAX: usize = 1024;
const VALUE_MAX: usize = 65_535;
const DELETION: u32 = u32::MAX;
const FOOTER: usize = 16;

type Pair = (Vec<u8>, Option<Vec<u8>>);

// ---- SHA-256

const ROUNDS: [u32; 64] = [
    0x428a2f98, 0x71374491, 0xb5c0fbcf, 0xe9b5dba5, 0x3956c25b, 0x59f111f1, 0x923f82a4, 0xab1c5ed5,
    0xd807aa98, 0x12835b01, 0x243185be, 0x550c7dc3, 0x72be5d74, 0x80deb1fe, 0x9bdc06a7, 0xc19bf174,
    0xe49b69c1, 0xefbe4786, 0x0fc19dc6, 0x240ca1cc, 0x2de92c6f, 0x4a7484aa, 0x5cb0a9dc, 0x76f988da,
    0x983e5152, 0xa831c66d, 0xb00327c8, 0xbf597fc7, 0xc6e00bf3, 0xd5a79147, 0x06ca6351, 0x14292967,
    0x27b70a85, 0x2e1b2138, 0x4d2c6dfc, 0x53380d13, 0x650a7354, 0x766a0abb, 0x81c2c92e, 0x92722c85,
    0xa2bfe8a1, 0xa81a664b, 0xc24b8b70, 0xc76c51a3, 0xd192e819, 0xd6990624, 0xf40e3585, 0x106aa070,
    0x19a4c116, 0x1e376c08, 0x2748774c, 0x34b0bcb5, 0x391c0cb3, 0x4ed8aa4a, 0x5b9cca4f, 0x682e6ff3,
    0x748f82ee, 0x78a5636f, 0x84c87814, 0x8cc70208, 0x90befffa, 0xa4506ceb, 0xbef9a3f7, 0xc67178f2,
];

const START: [u32; 8] = [
    0x6a09e667, 0xbb67ae85, 0x3c6ef372, 0xa54ff53a, 0x510e527f, 0x9b05688c, 0x1f83d9ab, 0x5be0cd19,
];

fn mix_in(state: &mut [u32; 8], chunk: &[u8]) {
    let mut words = [0u32; 64];
    for (word, bytes) in words.iter_mut().zip(chunk.chunks_exact(4)) {
        *word = u32::from_be_bytes(bytes.try_into().unwrap());
    }
    for at in 16..64 {
        let near = words[at - 15];
        let far = words[at - 2];
        let low = near.rotate_right(7) ^ near.rotate_right(18) ^ (near >> 3);
        let high = far.rotate_right(17) ^ far.rotate_right(19) ^ (far >> 10);
        words[at] = words[at - 16]
            .wrapping_add(low)
            .wrapping_add(words[at - 7])
            .wrapping_add(high);
    }
    let [mut a, mut b, mut c, mut d, mut e, mut f, mut g, mut h] = *state;
    for (word, round) in words.iter().zip(ROUNDS) {
        let high = e.rotate_right(6) ^ e.rotate_right(11) ^ e.rotate_right(25);
        let chosen = (e & f) ^ (!e & g);
        let first = h
            .wrapping_add(high)
            .wrapping_add(chosen)
            .wrapping_add(round)
            .wrapping_add(*word);
        let low = a.rotate_right(2) ^ a.rotate_right(13) ^ a.rotate_right(22);
        let most = (a & b) ^ (a & c) ^ (b & c);
        h = g;
        g = f;
        f = e;
        e = d.wrapping_add(first);
        d = c;
        c = b;
        b = a;
        a = first.wrapping_add(low.wrapping_add(most));
    }
    for (old, new) in state.iter_mut().zip([a, b, c, d, e, f, g, h]) {
        *old = old.wrapping_add(new);
    }
}

fn sha256(bytes: &[u8]) -> [u8; 32] {
    let mut state = START;
    let chunks = bytes.chunks_exact(64);
    let mut last = chunks.remainder().to_vec();
    chunks.for_each(|chunk| mix_in(&mut state, chunk));
    last.push(0x80);
    while last.len() % 64 != 56 {
        last.push(0);
    }
    last.extend_from_slice(&(bytes.len() as u64 * 8).to_be_bytes());
    last.chunks_exact(64).for_each(|chunk| mix_in(&mut state, chunk));
    let mut digest = [0; 32];
    for (bytes, word) in digest.chunks_exact_mut(4).zip(state) {
        bytes.copy_from_slice(&word.to_be_bytes());
    }
    digest
}

// ---- writing

fn size_of(pair: &Pair) -> usize {
    6 + pair.0.len() + pair.1.as_ref().map_or(0, Vec::len)
}

fn add_pair(out: &mut Vec<u8>, pair: &Pair) {
    out.extend_from_slice(&(pair.0.len() as u16).to_be_bytes());
    out.extend_from_slice(&pair.0);
    match &pair.1 {
        Some(value) => {
            out.extend_from_slice(&(value.len() as u32).to_be_bytes());
            out.extend_from_slice(value);
        }
        None => out.extend_from_slice(&DELETION.to_be_bytes()),
    }
}

fn add_block(out: &mut Vec<u8>, counts: &mut Vec<u8>, pairs: &[Pair]) {
    let first = out.len();
    out.extend_from_slice(&(pairs.len() as u16).to_be_bytes());
    let mut place = 2 + 2 * pairs.len();
    for pair in pairs {
        out.extend_from_slice(&(place as u16).to_be_bytes());
        place += size_of(pair);
    }
    for pair in pairs {
        add_pair(out, pair);
    }
    let units = (out.len() - first).div_ceil(UNIT);
    out.resize(first + units * UNIT, 0);
    counts.extend_from_slice(&(pairs.len() as u16).to_be_bytes());
    counts.resize(counts.len() + 2 * (units - 1), 0);
}

fn build(run: &[Pair]) -> Vec<u8> {
    let mut out = Vec::new();
    let mut counts = Vec::new();
    let mut first = 0;
    let mut size = 0;
    for (at, pair) in run.iter().enumerate() {
        if at > first && 2 + 2 * (at - first + 1) + size + size_of(pair) > UNIT {
            add_block(&mut out, &mut counts, &run[first..at]);
            first = at;
            size = 0;
        }
        size += size_of(pair);
    }
    add_block(&mut out, &mut counts, &run[first..]);
    let units = (out.len() / UNIT) as u32;
    out.extend_from_slice(&counts);
    out.extend_from_slice(b"RDBT\0\x01\0\0");
    out.extend_from_slice(&units.to_be_bytes());
    out.extend_from_slice(&(run.len() as u32).to_be_bytes());
    out.shrink_to_fit();
    out
}

// ---- opening

struct Table {
    bytes: Vec<u8>,
    starts: Vec<u32>,
}

fn two(bytes: &[u8], at: usize) -> Option<usize> {
    let found = bytes.get(at..at + 2)?;
    Some(usize::from(u16::from_be_bytes(found.try_into().ok()?)))
}

fn four(bytes: &[u8], at: usize) -> Option<u32> {
    let found = bytes.get(at..at + 4)?;
    Some(u32::from_be_bytes(found.try_into().ok()?))
}

/// The key and the value at a place, and the place after them.
fn pair_at(area: &[u8], at: usize) -> Option<(&[u8], Option<&[u8]>, usize)> {
    let len = two(area, at)?;
    if len == 0 || len > KEY_MAX {
        return None;
    }
    let key = area.get(at + 2..at + 2 + len)?;
    let tag = four(area, at + 2 + len)?;
    let from = at + 6 + len;
    if tag == DELETION {
        return Some((key, None, from));
    }
    let value_len = tag as usize;
    if value_len > VALUE_MAX {
        return None;
    }
    Some((key, Some(area.get(from..from + value_len)?), from + value_len))
}

/// Tests the block at a place: adds where its pairs begin, and gives how many units it has.
fn read_block<'a>(bytes: &'a [u8], first: usize, end: usize, last: &mut &'a [u8],
                  starts: &mut Vec<u32>) -> Option<(usize, usize)> {
    let count = two(&bytes[..end], first)?;
    let area = match count {
        0 => return None,
        1 => &bytes[first..end],
        _ => bytes[..end].get(first..first + UNIT)?,
    };
    let mut place = 2 + 2 * count;
    for index in 0..count {
        if two(area, 2 + 2 * index)? != place {
            return None;
        }
        let (key, _, after) = pair_at(area, place)?;
        if *last >= key {
            return None;
        }
        *last = key;
        starts.push((first + place) as u32);
        place = after;
    }
    let whole = place.div_ceil(UNIT) * UNIT;
    if area.get(place..whole)?.iter().any(|byte| *byte != 0) {
        return None;
    }
    Some((count, whole / UNIT))
}

fn open(bytes: Vec<u8>, digest: &[u8; 32]) -> Option<Table> {
    if sha256(&bytes) != *digest {
        return None;
    }
    let footer = bytes.len().checked_sub(FOOTER)?;
    if &bytes[footer..footer + 8] != b"RDBT\0\x01\0\0" {
        return None;
    }
    let units = four(&bytes, footer + 8)? as usize;
    let pairs = four(&bytes, footer + 12)? as usize;
    if units == 0 || bytes.len() != units * (UNIT + 2) + FOOTER || pairs > bytes.len() / 7 {
        return None;
    }
    let counts = units * UNIT;
    let mut starts = Vec::with_capacity(pairs);
    let mut last: &[u8] = &[];
    let mut unit = 0;
    while unit < units {
        let (count, long) = read_block(&bytes, unit * UNIT, counts, &mut last, &mut starts)?;
        if two(&bytes, counts + 2 * unit)? != count {
            return None;
        }
        for further in unit + 1..unit + long {
            if two(&bytes, counts + 2 * further)? != 0 {
                return None;
            }
        }
        unit += long;
    }
    if starts.len() != pairs {
        return None;
    }
    Some(Table { bytes, starts })
}

// ---- the works

fn made_run(pairs: u32, value_len: usize) -> Vec<Pair> {
    let gap = u64::MAX / u64::from(pairs);
    (0..pairs)
        .map(|place| {
            let bytes = gap.wrapping_mul(u64::from(place)).to_be_bytes();
            (bytes.repeat(2), Some(vec![place as u8; value_len]))
        })
        .collect()
}

fn mixed(number: u64) -> u64 {
    let once = (number ^ (number >> 30)).wrapping_mul(0xBF58_476D_1CE4_E5B9);
    let twice = (once ^ (once >> 27)).wrapping_mul(0x94D0_49BB_1331_11EB);
    twice ^ (twice >> 31)
}

fn front_of(digest: &[u8; 32]) -> u64 {
    u64::from_be_bytes(digest[..8].try_into().unwrap())
}

fn sum_of_pair(table: &Table, place: usize) -> u64 {
    let Some((key, value, _)) = pair_at(&table.bytes, table.starts[place] as usize) else {
        return 0;
    };
    let value = value.unwrap_or(&[]);
    let ends = u64::from(*key.last().unwrap_or(&0)) + u64::from(*value.first().unwrap_or(&0));
    ends + key.len() as u64 + value.len() as u64
}

fn sum_of(work: &str, run: &[Pair], times: u32) -> Option<u64> {
    let bytes = build(run);
    let digest = sha256(&bytes);
    let mut sum: u64 = front_of(&digest);
    let mut add = |more: u64| sum = sum.wrapping_add(more);
    match work {
        "build" => (0..times).for_each(|_| add(build(run).len() as u64)),
        "hash" => (0..times).for_each(|_| add(front_of(&sha256(&bytes.clone())))),
        "open" => {
            for _ in 0..times {
                add(open(bytes.clone(), &digest)?.starts.len() as u64);
            }
        }
        "read" => {
            let table = open(bytes, &digest)?;
            let count = table.starts.len() as u64;
            (0..times).for_each(|time| {
                add(sum_of_pair(&table, (mixed(u64::from(time)) % count) as usize));
            });
        }
        _ => return None,
    }
    Some(sum)
}

fn main() -> ExitCode {
    let words: Vec<String> = env::args().skip(1).collect();
    let [work, pairs, value_len, times] = words.as_slice() else {
        return ExitCode::from(2);
    };
    let (Ok(pairs), Ok(value_len), Ok(times)) =
        (pairs.parse::<u32>(), value_len.parse::<u16>(), times.parse())
    else {
        return ExitCode::from(2);
    };
    if pairs == 0 {
        return ExitCode::from(6);
    }
    let run = made_run(pairs, usize::from(value_len));
    let Some(sum) = sum_of(work, &run, times) else {
        return ExitCode::from(2);
    };
    println!("{sum}");
    ExitCode::from(0)
}
