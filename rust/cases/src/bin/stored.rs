//! Writes some 2,000 case files with what the rules say of each, or makes them anew: stored write FILE [SEED] | stored check FILE
//!
//! All that is stored comes from the model alone. The format is written down in README.md.
use cases::face::{case_of, record};
use cases::files::{self, Drawn, EXAMPLE, FAMILIES};
use cases::model;
use cases::random::Random;
use std::collections::BTreeMap;

const HEADER: usize = 128;
const MADE_BY: &str = "Case files with what the rules say of each, made by: rust/cases/run stored write FILE ";

/// The offsets that are asked of a file: all of the example's, else both ends, some between, and some past the end.
fn offsets(random: &mut Random, file: &[u8]) -> Vec<usize> {
    let length = file.len();
    if file == EXAMPLE {
        return (0..=length + 9).chain([1 << 32, usize::MAX]).collect();
    }
    let behind = random.pick(&[length + 1, length + 8, 65_536, 1 << 32, usize::MAX - 8, usize::MAX]);
    let mut offsets = vec![0, length, behind];
    // One at a record, if there is one, and two anywhere.
    let mut at = 0;
    for _ in 0..random.below(8) {
        at = model::stands_at(file, at).map_or(at, |body| body.end);
    }
    offsets.extend([at, random.below(length + 1), random.below(length + 1)]);
    offsets
}

/// One record without its length.
fn record_of(random: &mut Random, drawn: &Drawn) -> Vec<u8> {
    let Drawn { bytes, room, .. } = drawn;
    let read = model::read(bytes);
    let case = case_of(&read, room.0, room.1);
    let huts = read.as_ref().map_or(&[][..], |accepted| &accepted.huts);
    let offsets = offsets(random, bytes);

    let mut all = vec![case.number as u8, case.n as u8, huts.len() as u8, offsets.len() as u8];
    all.extend((case.place as u32).to_le_bytes());
    all.extend(case.window.to_le_bytes());
    for number in [room.0, room.1, bytes.len(), case.n * case.n] {
        all.extend((number as u16).to_le_bytes());
    }
    all.extend(bytes);
    huts.iter().for_each(|hut| all.extend(hut.to_le_bytes()));
    if let (model::ACCEPTED, Ok(accepted)) = (case.number, &read) {
        accepted.costs.iter().for_each(|cost| all.extend(cost.to_le_bytes()));
        all.extend(&accepted.mask);
    }
    for at in offsets {
        let found = record(bytes, at);
        all.extend((at as u64).to_le_bytes());
        all.extend([found.number as u8, found.length as u8]);
        all.extend(&bytes[found.start..][..found.length]);
    }
    all
}

/// The whole file of a seed, and a line of counts.
fn made(seed: u64) -> (Vec<u8>, String) {
    let mut all = format!("{MADE_BY}{seed}").into_bytes();
    all.resize(HEADER - 1, b' ');
    all.push(b'\n');
    let (mut counts, mut longest) = (BTreeMap::new(), 0);
    let random = &mut Random::of(seed, 2);
    let drawn = files::all(seed, true);
    for one in &drawn {
        let record = record_of(random, one);
        *counts.entry(record[0]).or_insert(0) += 1;
        longest = longest.max(record.len());
        all.extend((record.len() as u32).to_le_bytes());
        all.extend(record);
    }
    all.extend([0; 4]);
    let by_number: Vec<String> = counts.iter().map(|(number, count)| format!("{count} with {number}")).collect();
    let by_family: Vec<String> = (0..FAMILIES.len())
        .map(|family| format!("{} {}", FAMILIES[family], drawn.iter().filter(|one| one.family == family).count()))
        .collect();
    let lines = [
        format!("{} files: {}", drawn.len(), by_number.join(", ")),
        by_family.join(", "),
        format!("{} bytes, the longest record {longest}", all.len()),
    ];
    (all, lines.join("\n"))
}

fn write(file: &str, seed: u64) {
    let (all, counts) = made(seed);
    std::fs::write(file, &all).expect(file);
    println!("{counts}");
}

/// Makes the file anew, with the seed that it names, and compares byte for byte.
fn check(file: &str) {
    let all = std::fs::read(file).expect(file);
    let header = String::from_utf8_lossy(&all[..HEADER.min(all.len())]).into_owned();
    let seed = header.strip_prefix(MADE_BY).and_then(|seed| seed.trim().parse().ok());
    let same = seed.is_some_and(|seed| made(seed).0 == all);
    println!("{file}: {}", if same { "as it is made anew" } else { "NOT as it is made anew" });
    println!("{} passed, {} failed", same as u32, !same as u32);
    std::process::exit(!same as i32);
}

fn main() {
    let words: Vec<String> = std::env::args().skip(1).collect();
    match words.iter().map(String::as_str).collect::<Vec<_>>()[..] {
        ["write", file] => write(file, 1),
        ["write", file, seed] => write(file, seed.parse().expect("a seed")),
        ["check", file] => check(file),
        _ => {
            eprintln!("stored write FILE [SEED] | stored check FILE");
            std::process::exit(2);
        }
    }
}
