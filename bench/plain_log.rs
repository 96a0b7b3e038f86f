//! What `log_bench` does, by a plain program: the same file, the same entries in memory, and no check of what was written.
//!
//! Words: `FOLDER ENTRIES TIMES`.

use std::env;
use std::fs::{self, File};
use std::io;
use std::os::unix::fs::FileExt;
use std::path::Path;
use std::process::ExitCode;

const OPEN_GATE: u8 = 0xA5;
const PENDING_MAX: usize = 262_144;
const DELETED: u32 = 0xFFFF_FFFF;

struct Entry {
    caller: u32,
    ordinal: u64,
    key: Vec<u8>,
    change: Option<Vec<u8>>,
}

/// Bytes that are read from the front.
struct Reader<'a> {
    rest: &'a [u8],
}

impl<'a> Reader<'a> {
    fn take(&mut self, count: usize) -> &'a [u8] {
        let (front, rest) = self.rest.split_at(count);
        self.rest = rest;
        front
    }

    fn number<const N: usize>(&mut self) -> [u8; N] {
        self.take(N).try_into().unwrap()
    }

    fn entry(&mut self) -> Entry {
        let caller = u32::from_be_bytes(self.number());
        let ordinal = u64::from_be_bytes(self.number());
        let key_len = u16::from_be_bytes(self.number()) as usize;
        assert!((1..=1024).contains(&key_len));
        let key = self.take(key_len).to_vec();
        let value_len = u32::from_be_bytes(self.number());
        let change = if value_len == DELETED {
            None
        } else {
            assert!(value_len <= 65_535);
            Some(self.take(value_len as usize).to_vec())
        };
        Entry { caller, ordinal, key, change }
    }
}

/// The entries of the file's frames, after the header.
fn read_entries(file: &Path) -> Vec<Entry> {
    let bytes = fs::read(file).unwrap_or_default();
    let mut entries = Vec::new();
    let mut rest = bytes.as_slice();
    while rest.first() == Some(&OPEN_GATE) {
        let len = u32::from_be_bytes(rest[1..5].try_into().unwrap()) as usize;
        let payload = &rest[5..5 + len];
        rest = &rest[5 + len..];
        if payload[0] == 1 {
            let mut reader = Reader { rest: &payload[9..] };
            for _ in 0..u32::from_be_bytes(reader.number()) {
                entries.push(reader.entry());
            }
        }
    }
    entries
}

fn sum_of(entries: &[Entry]) -> u64 {
    let weight = |entry: &Entry| {
        let len = entry.change.as_ref().map_or(0, |value| value.len() as u64);
        entry.ordinal + u64::from(*entry.key.last().unwrap()) + len + u64::from(entry.caller)
    };
    entries.iter().map(weight).sum()
}

/// Writes a frame as the journal does: all but its gate, a sync, its gate, a sync.
fn write_frame(file: &File, at: u64, payload: &[u8]) -> io::Result<u64> {
    let mut body = Vec::with_capacity(payload.len() + 5);
    body.extend_from_slice(&(payload.len() as u32).to_be_bytes());
    body.extend_from_slice(payload);
    body.push(0);
    file.write_all_at(&body, at + 1)?;
    file.sync_data()?;
    file.write_all_at(&[OPEN_GATE], at)?;
    file.sync_data()?;
    Ok(at + 5 + payload.len() as u64)
}

fn add_entry(out: &mut Vec<u8>, ordinal: u64) {
    let mut key = [b'k'; 16];
    key[8..].copy_from_slice(&ordinal.to_be_bytes());
    out.extend_from_slice(&0u32.to_be_bytes());
    out.extend_from_slice(&ordinal.to_be_bytes());
    out.extend_from_slice(&16u16.to_be_bytes());
    out.extend_from_slice(&key);
    out.extend_from_slice(&105u32.to_be_bytes());
    out.extend_from_slice(&[b'v'; 105]);
}

/// A payload of entries before its first one.
fn head_of(first: u64, count: u32) -> Vec<u8> {
    let mut head = vec![1];
    head.extend_from_slice(&first.to_be_bytes());
    head.extend_from_slice(&count.to_be_bytes());
    head
}

fn write_entries(path: &Path, entries: u64) -> io::Result<()> {
    let file = File::create(path)?;
    let header = [0; 17];
    let mut at = write_frame(&file, 0, &header)?;
    let mut first = 0;
    while first < entries {
        let mut fields = Vec::new();
        let mut next = first;
        while next < entries && fields.len() < PENDING_MAX {
            add_entry(&mut fields, next);
            next += 1;
        }
        let mut payload = head_of(first, (next - first) as u32);
        payload.append(&mut fields);
        at = write_frame(&file, at, &payload)?;
        first = next;
    }
    Ok(())
}

fn main() -> ExitCode {
    let words: Vec<String> = env::args().skip(1).collect();
    let [folder, entries, times] = words.as_slice() else {
        return ExitCode::from(2);
    };
    let (Ok(entries), Ok(times)) = (entries.parse::<u64>(), times.parse::<u32>()) else {
        return ExitCode::from(2);
    };
    let path = Path::new(folder).join("log0");
    let mut count = read_entries(&path).len() as u64;
    if count < entries {
        write_entries(&path, entries).expect("the file is written");
        count = entries;
    }
    let mut sum: u64 = 0;
    for _ in 0..times {
        sum = sum.wrapping_add(sum_of(&read_entries(&path)));
    }
    println!("{count} {sum}");
    ExitCode::from(0)
}
