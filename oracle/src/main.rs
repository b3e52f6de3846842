//! The oracle as a program.

mod block;
mod compare;
mod contacts;
mod judge;
mod night;
mod nights;
mod rng;
mod rounding;
mod values;
mod vectors;
mod wrong;

use compare::Counts;
use std::fs;
use std::io::Read;
use std::path::{Path, PathBuf};
use std::process::ExitCode;

const USAGE: &str = "oracle answer < night.txt   the answer of document 01, its arithmetic done by the user's Rust
oracle compare NIGHT OURS   holds an answer to the oracle's
oracle folder DIR           the same for every NAME.txt and NAME.ours of a folder; the last line is 'N passed, M failed'
oracle nights N SEED DIR    writes N good nights and tells what is in them
oracle steps N SEED DIR     the same, until they have N steps
oracle apart N SEED DIR     the same, of nights in which every step's result shows by itself
oracle vectors DIR          writes the kept vectors
oracle wrong DIR            which wrong orders the vectors of a folder would show";

fn main() -> ExitCode {
    let args: Vec<String> = std::env::args().skip(1).collect();
    let words: Vec<&str> = args.iter().map(String::as_str).collect();
    let result = match words[..] {
        ["answer"] => answer(),
        ["compare", night, ours] => compare_one(night, ours),
        ["folder", dir] => compare_folder(Path::new(dir)),
        ["nights", n, seed, dir] => write_nights(n, seed, Path::new(dir), |nights, _| nights, |_| true),
        ["steps", n, seed, dir] => write_nights(n, seed, Path::new(dir), |_, steps| steps, |_| true),
        ["apart", n, seed, dir] => {
            write_nights(n, seed, Path::new(dir), |_, steps| steps, |number| !nights::is_chain(number))
        }
        ["vectors", dir] => vectors::write(Path::new(dir)).map(|()| true).map_err(|error| error.to_string()),
        ["wrong", dir] => vectors::tell(Path::new(dir)).map(|()| true),
        _ => Err(format!("use:\n{USAGE}")),
    };
    match result {
        Ok(true) => ExitCode::SUCCESS,
        Ok(false) => ExitCode::FAILURE,
        Err(word) => {
            println!("? {word}");
            ExitCode::from(2)
        }
    }
}

fn answer() -> Result<bool, String> {
    let mut text = String::new();
    std::io::stdin().read_to_string(&mut text).map_err(|error| error.to_string())?;
    print!("{}", judge::text(&judge::answer(night::read(&text)?)));
    Ok(true)
}

fn read(path: &Path) -> Result<String, String> {
    fs::read_to_string(path).map_err(|error| format!("{}: {error}", path.display()))
}

fn compare_one(night: &str, ours: &str) -> Result<bool, String> {
    let (mut counts, mut said) = (Counts::default(), String::new());
    let input = read(Path::new(night))?;
    let good = compare::one(night, &input, &read(Path::new(ours))?, &mut counts, &mut said)?;
    print!("{said}{}", compare::report(&counts));
    Ok(good)
}

/// The texts of a folder, by name.
fn texts(dir: &Path) -> Result<Vec<PathBuf>, String> {
    let entries = fs::read_dir(dir).map_err(|error| format!("{}: {error}", dir.display()))?;
    let mut texts: Vec<_> = entries.map(|entry| entry.unwrap().path()).collect();
    texts.retain(|path| path.extension().is_some_and(|ending| ending == "txt"));
    texts.sort();
    Ok(texts)
}

fn compare_folder(dir: &Path) -> Result<bool, String> {
    let (mut counts, mut said) = (Counts::default(), String::new());
    for path in texts(dir)? {
        let name = path.file_stem().unwrap().to_string_lossy();
        let ours = read(&path.with_extension("ours")).unwrap_or_default();
        compare::one(&name, &read(&path)?, &ours, &mut counts, &mut said)?;
    }
    print!("{said}{}", compare::report(&counts));
    println!("{} passed, {} failed", counts.nights - counts.failed, counts.failed);
    Ok(counts.failed == 0)
}

/// Writes nights of wanted numbers until `of` them, or of their steps, there are N.
fn write_nights(
    n: &str,
    seed: &str,
    dir: &Path,
    of: fn(usize, usize) -> usize,
    wanted: fn(u64) -> bool,
) -> Result<bool, String> {
    let n: usize = n.parse().map_err(|_| "N is a number")?;
    let seed: u64 = seed.parse().map_err(|_| "SEED is a number")?;
    fs::create_dir_all(dir).map_err(|error| error.to_string())?;
    let (mut counts, mut nights, mut steps) = (Counts::default(), 0, 0);
    for number in (0..).filter(|&number| wanted(number)) {
        if of(nights, steps) >= n {
            break;
        }
        let made = nights::night(seed, number);
        let path = dir.join(format!("{number:06}.txt"));
        let text = night::text(&made);
        fs::write(&path, &text).map_err(|error| error.to_string())?;
        nights += 1;
        compare::one("", &text, &judge::text(&judge::answer(made)), &mut counts, &mut String::new())?;
        steps = counts.steps.values().sum();
    }
    print!("{}", compare::steps_table(&counts));
    Ok(true)
}
