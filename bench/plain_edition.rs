// An edition's fields in plain Rust, to be copied: what `edition_bench copy` copies. The same words and the same sum.
use std::env;
use std::hint::black_box;
use std::process::exit;

#[derive(Clone)]
#[allow(dead_code)]
struct FileField {
    number: u64,
    length: u64,
    digest: [u8; 32],
}

#[derive(Clone)]
#[allow(dead_code)]
struct EditionPart {
    low: Vec<u8>,
    base: u64,
    runs: Vec<FileField>,
    index: Option<FileField>,
}

#[derive(Clone)]
#[allow(dead_code)]
struct Edition {
    number: u64,
    next: u64,
    first: u64,
    partitions: Vec<EditionPart>,
}

fn file(number: u64) -> FileField {
    FileField { number, length: 4114, digest: [7; 32] }
}

fn part(place: u32, runs: u8, first: u64) -> EditionPart {
    let mut low = Vec::new();
    if place > 0 {
        low.extend_from_slice(&[b'k'; 12]);
        low.extend_from_slice(&place.to_be_bytes());
    }
    let runs: Vec<FileField> = (0..runs).map(|run| file(first + run as u64)).collect();
    let index = Some(file(first + runs.len() as u64));
    EditionPart { low, base: 9, runs, index }
}

fn main() {
    let words: Vec<String> = env::args().skip(1).collect();
    let [work, partitions, runs, times] = words.as_slice() else { exit(2) };
    if work != "copy" {
        exit(2);
    }
    let (Ok(partitions), Ok(runs), Ok(times)) = (partitions.parse::<u32>(), runs.parse::<u8>(), times.parse::<u32>()) else { exit(2) };
    let files = runs as u64 + 1;
    let number = partitions as u64 * files + 1;
    let partitions = (0..partitions).map(|place| part(place, runs, place as u64 * files + 1)).collect();
    let edition = Edition { number, next: number + 1, first: 0, partitions };
    let mut sum: u64 = 0;
    for _ in 0..times {
        sum = sum.wrapping_add(black_box(black_box(&edition).clone()).partitions.len() as u64);
    }
    println!("{sum}");
}
