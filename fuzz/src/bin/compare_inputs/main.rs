//! Compares gimli and gimli_cfi without libFuzzer: by the seeds, and by inputs that are made of them,
//! the same in each run.
//!
//!     compare_inputs SEEDS COUNT SECONDS LAST
//!     compare_inputs SEEDS NUMBER
//!
//! SEEDS is a folder that seeds.py wrote. Its files are the first inputs, and COUNT are made of them,
//! unless SECONDS are over before. The number of each input is written to the file LAST before it is
//! compared: where something differs, it is printed, and the process stops. Otherwise prints what was
//! compared. With NUMBER prints the bytes of that input.
mod made;

use fuzz_target::{compare_input, counts};
use made::Maker;
use std::fs::File;
use std::io::Write;
use std::os::unix::fs::FileExt;
use std::path::{Path, PathBuf};
use std::time::{Duration, Instant};

fn main() -> std::io::Result<()> {
    let words: Vec<String> = std::env::args().skip(1).collect();
    let number = |word: &String| word.parse().expect("a number");
    match &words[..] {
        [seeds, one] => {
            let seeds = read_all(seeds.as_ref())?;
            std::io::stdout().write_all(&input(&seeds, &Maker::new(&seeds), number(one)))
        }
        [seeds, count, seconds, last] => {
            let time = Duration::from_secs(number(seconds) as u64);
            compare(
                &read_all(seeds.as_ref())?,
                number(count),
                time,
                last.as_ref(),
            )
        }
        _ => panic!("compare_inputs SEEDS COUNT SECONDS LAST"),
    }
}

fn compare(seeds: &[Vec<u8>], count: usize, time: Duration, last: &Path) -> std::io::Result<()> {
    let (end, maker) = (Instant::now() + time, Maker::new(seeds));
    let (last, all) = (File::create(last)?, seeds.len() + count);
    let mut compared = 0;
    while compared < all && (compared < seeds.len() || Instant::now() < end) {
        last.write_all_at(format!("{compared:10}\n").as_bytes(), 0)?;
        compare_input(&input(seeds, &maker, compared));
        compared += 1;
    }
    let made = compared - seeds.len();
    let of = if made < count {
        format!(" of {count}")
    } else {
        String::new()
    };
    let (seeds, counts) = (seeds.len(), counts::text());
    println!("{seeds} seeds and {made}{of} inputs made of them; {counts}");
    Ok(())
}

/// The input of a number: a seed, or one that is made.
fn input(seeds: &[Vec<u8>], maker: &Maker, number: usize) -> Vec<u8> {
    match number.checked_sub(seeds.len()) {
        None => seeds[number].clone(),
        Some(made) => maker.input(made as u64),
    }
}

/// The files of a folder, by their names.
fn read_all(folder: &Path) -> std::io::Result<Vec<Vec<u8>>> {
    let files: Result<Vec<PathBuf>, _> = std::fs::read_dir(folder)?
        .map(|file| file.map(|file| file.path()))
        .collect();
    let mut files = files?;
    files.sort();
    files.iter().map(std::fs::read).collect()
}
