//! A program tried: some hundreds of files on its standard input, and what it prints judged.
use crate::files::{self, Drawn, FAMILIES};
use crate::model::ROOM;
use std::collections::BTreeMap;
use std::io::{Read, Write};
use std::process::{Command, Stdio};

/// So many failures are printed whole.
const PRINTED: usize = 5;

/// What the program prints with these words, where it is handed the file as it is, or byte by byte.
fn printed(program: &str, words: &[&str], file: &[u8], byte_by_byte: bool) -> Result<String, String> {
    let mut program = Command::new("tools/x86-64")
        .arg(program)
        .args(words)
        .stdin(Stdio::piped())
        .stdout(Stdio::piped())
        .spawn()
        .map_err(|what| what.to_string())?;
    let mut input = program.stdin.take().unwrap();
    // The program may stop reading after 4,096 bytes: then the pipe is closed, which is no failure.
    for part in file.chunks(if byte_by_byte { 1 } else { usize::MAX }) {
        if input.write_all(part).is_err() {
            break;
        }
        if byte_by_byte {
            std::thread::yield_now();
        }
    }
    drop(input);
    let mut output = vec![];
    program.stdout.take().unwrap().read_to_end(&mut output).map_err(|what| what.to_string())?;
    let status = program.wait().map_err(|what| what.to_string())?;
    if !status.success() {
        return Err(format!("{status}"));
    }
    String::from_utf8(output).map_err(|what| what.to_string())
}

/// Some hundreds of files: every so-manieth of each family, and all of the families that are small.
fn chosen(seed: u64) -> Vec<Vec<u8>> {
    let mut seen = [0; FAMILIES.len()];
    let is_chosen = |drawn: &Drawn| {
        seen[drawn.family] += 1;
        let every = match FAMILIES[drawn.family] {
            "example" | "good" | "long" => 1,
            "random" => 5,
            _ => 7,
        };
        drawn.room == (ROOM, ROOM) && (seen[drawn.family] - 1) % every == 0
    };
    let mut all = files::all(seed, true);
    all.retain(is_chosen);
    all.into_iter().map(|drawn| drawn.bytes).collect()
}

/// Tries a program: `judge` is handed a file and what was printed of it, with no word and with each of the words, and says what outcome
/// that is, or what is wrong with it. The last line is 'N passed, M failed'; any failure ends with exit status 1.
pub fn try_program(program: &str, words: &[&str], judge: impl Fn(&[u8], &[String]) -> Result<&'static str, String>) -> ! {
    let seed = std::env::args().nth(1).map_or(1, |word| word.parse().expect("the seed is a number"));
    let (mut counts, mut failures) = (BTreeMap::new(), vec![]);
    for (number, file) in chosen(seed).iter().enumerate() {
        let ways: &[bool] = if number % 20 == 0 { &[false, true] } else { &[false] };
        for &byte_by_byte in ways {
            let mut ways = vec![&[][..]];
            ways.extend(words.chunks(1));
            let texts: Result<Vec<_>, _> = ways.iter().map(|words| printed(program, words, file, byte_by_byte)).collect();
            match texts.and_then(|texts| judge(file, &texts)) {
                Ok(outcome) => *counts.entry(outcome).or_insert(0) += 1,
                Err(what) => failures.push(format!("{what}; the file is {file:02x?}")),
            }
        }
    }
    counts.iter().for_each(|(outcome, count)| println!("{outcome}: {count}"));
    failures.iter().take(PRINTED).for_each(|failure| println!("{failure}"));
    println!("{} passed, {} failed", counts.values().sum::<u64>(), failures.len());
    std::process::exit(!failures.is_empty() as i32);
}

/// The outcome, where the text is the one that is wanted.
pub fn same(printed: &str, wanted: &str, outcome: &'static str) -> Result<&'static str, String> {
    if printed == wanted {
        Ok(outcome)
    } else {
        Err(format!("printed {printed:?}, and not {wanted:?}"))
    }
}
