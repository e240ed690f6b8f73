//! differ: runs the proved library and the independent reader over the same files.
//!
//!   differ [--files N] [--seed S] [--seconds T]   files made from the seed, until one of the two limits
//!   differ --print FILE...                        one line for each file, by the independent reader
//!   differ --print-library FILE...                the same by the library
//!   differ --samples FILE...                      a table of both readers' answers to these files
//!   differ --hull                                 the model of the firmware example, to standard output
//!
//! Exit status 1: the two differ.

use device::Device;
use differ::compare::{checked, corrupt, difference, questions, Case, Difference};
use differ::mutate::make;
use differ::report::{line, print_difference, print_histogram, Histogram};
use differ::rng::Rng;
use differ::{hull, samples, shrink::shrink};
use reader::{Answers, Independent};
use std::io::Write;
use std::process::ExitCode;
use std::time::{Duration, Instant};

fn main() -> ExitCode {
    let arguments: Vec<String> = std::env::args().skip(1).collect();
    match arguments.first().map(String::as_str) {
        Some("--print") => print_files(&Independent, &arguments[1..]),
        Some("--print-library") => print_files(&Device, &arguments[1..]),
        Some("--hull") => print_hull(),
        Some("--samples") => samples::compare(&Device, &Independent, &arguments[1..]),
        _ => match limits(&arguments) {
            Some((files, seed, seconds)) => run(files, seed, Duration::from_secs(seconds)),
            None => {
                eprintln!("usage: differ [--files N] [--seed S] [--seconds T] | --print FILE... | --print-library FILE... | --samples FILE... | --hull");
                ExitCode::from(2)
            }
        },
    }
}

/// Number of files, seed and seconds.
fn limits(arguments: &[String]) -> Option<(u64, u64, u64)> {
    let (mut files, mut seed, mut seconds) = (100_000, 1, u64::MAX / 4);
    for pair in arguments.chunks(2) {
        let value = pair.get(1)?.parse().ok()?;
        match pair[0].as_str() {
            "--files" => files = value,
            "--seed" => seed = value,
            "--seconds" => seconds = value,
            _ => return None,
        }
    }
    Some((files, seed, seconds))
}

fn print_files(answers: &dyn Answers, names: &[String]) -> ExitCode {
    for name in names {
        match std::fs::read(name) {
            Ok(file) => println!("{}", line(answers, &file)),
            Err(error) => {
                eprintln!("{name}: {error}");
                return ExitCode::from(2);
            }
        }
    }
    ExitCode::SUCCESS
}

fn print_hull() -> ExitCode {
    match std::io::stdout().write_all(&hull::file()) {
        Ok(()) => ExitCode::SUCCESS,
        Err(_) => ExitCode::from(2),
    }
}

/// The differential tests.
fn run(files: u64, seed: u64, limit: Duration) -> ExitCode {
    println!("compared: {} and the independent reader; {files} files, seed {seed}", device::NAME);
    let start = Instant::now();
    let mut histogram = Histogram { verdicts: [0; 48], numbers: [0; 68] };
    let mut made = 0;
    while made < files && start.elapsed() < limit {
        // Each file has its own seed, so that one can be made again alone.
        let mut rng = Rng::new(seed.wrapping_mul(0x1_0000_0001).wrapping_add(made));
        for case in cases(&mut rng) {
            let (numbers, found) = difference(&Device, &Independent, &case);
            if found.is_some() {
                println!("file {made} of seed {seed}");
                return disagree(case);
            }
            histogram.verdicts[numbers[0] as usize] += u64::from(case.words.is_none());
            numbers[1..].iter().for_each(|&number| histogram.numbers[number as usize] += 1);
        }
        made += 1;
        if made % 10_000 == 0 {
            eprintln!("  {made} files, {:.0} s", start.elapsed().as_secs_f64());
        }
    }
    print_histogram(&histogram);
    let answers: u64 = histogram.numbers.iter().sum();
    let seconds = start.elapsed().as_secs_f64();
    println!("{made} files, {answers} readings, views and walks, {seconds:.0} s: no disagreement");
    ExitCode::SUCCESS
}

/// The cases of one file: with its own tables; with those of the good file it was made from, changed; with part of the
/// file lent.
fn cases(rng: &mut Rng) -> Vec<Case> {
    let made = make(rng);
    let own = checked(&Independent, &made.file).2;
    let mut cases = vec![Case { questions: questions(&own, rng), file: made.file.clone(), words: None }];
    for _ in 0..2 {
        let mut words = checked(&Independent, &made.base).2;
        corrupt(&mut words, rng);
        let mut file = if rng.percent(50) { made.file.clone() } else { made.base.clone() };
        if rng.percent(10) {
            file.truncate(rng.from_to(0, file.len()));
        }
        cases.push(Case { questions: questions(&words, rng), file, words: Some(words) });
    }
    cases
}

/// Prints the smallest case found.
fn disagree(case: Case) -> ExitCode {
    eprintln!("  a disagreement; looking for a smaller file");
    let small = shrink(&Device, &Independent, case, Duration::from_secs(30));
    let found: Option<Difference> = difference(&Device, &Independent, &small).1;
    print_difference(&small, &found.expect("the case still differs"));
    ExitCode::FAILURE
}
