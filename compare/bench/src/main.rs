//! bench [FOLDER]: times the check, component readings and walks; FOLDER has sample models as .glb.
//!
//! Each figure is the median of several runs, in the processor time of this thread, so that other work on the machine
//! counts little. The plain loop adds up the bytes of the JSON chunk one by one.

mod clock;
mod files;
mod tiny;

use device::Device;
use differ::compare::checked;
use differ::glb::split;
use reader::{Answers, Independent, Tables, WORDS};
use std::hint::black_box;
use std::path::Path;

const RUNS: usize = 9;

/// The median time of one call, in ns; a run makes so many calls that it takes some milliseconds.
fn time<T>(mut call: impl FnMut() -> T) -> f64 {
    let mut run = |calls: usize| {
        let start = clock::now();
        for _ in 0..calls {
            black_box(call());
        }
        (clock::now() - start) as f64 / calls as f64
    };
    let first = run(1).min(run(1));
    let calls = (3e6 / first.max(1.0)).clamp(1.0, 1e6) as usize;
    median(&mut (0..RUNS).map(|_| run(calls)).collect::<Vec<f64>>())
}

fn median(values: &mut [f64]) -> f64 {
    values.sort_by(f64::total_cmp);
    values.get(values.len() / 2).copied().unwrap_or(f64::NAN)
}

/// One byte at a time, as a parser must.
#[inline(never)]
fn plain(bytes: &[u8]) -> u32 {
    bytes.iter().fold(0, |sum, &byte| black_box(sum + u32::from(byte)))
}

/// The times of one file's check, in ns: library, independent reader, tinygltf (NaN where it refuses), plain loop.
fn check_times(file: &[u8]) -> (usize, u32, [f64; 4]) {
    let text = split(file).first().map_or(Vec::new(), |(_, text)| text.clone());
    let mut words = Box::new([0; WORDS]);
    let (verdict, _) = Device.check(file, &mut words);
    let library = time(|| Device.check(black_box(file), &mut words));
    let reader = time(|| reader::check(black_box(file)));
    let tiny = match tiny::load(file) {
        Some(true) => time(|| tiny::load(black_box(file))),
        _ => f64::NAN,
    };
    let floor = time(|| plain(black_box(&text)));
    (text.len(), verdict, [library, reader, tiny, floor])
}

fn cell(ns: f64, bytes: usize) -> String {
    if ns.is_nan() {
        return format!("{:>22}", "-");
    }
    format!("{:>13.0} {:>8.2}", ns, ns / bytes as f64)
}

fn print_checks() {
    println!("check: ns, and ns a JSON byte");
    println!(
        "{:<24} {:>6} {:>3} {:>22} {:>22} {:>22} {:>22}",
        "file", "JSON", "", "library", "independent reader", "tinygltf", "plain loop"
    );
    let rows = [
        ("JSON 1 KB", files::model(1024)),
        ("JSON 16 KB", files::model(16_384)),
        ("JSON 64 KB", files::model(65_400)),
        ("BIN to 16 MiB", files::large()),
        ("object of 900 members", files::members()),
    ];
    for (name, file) in rows {
        let (bytes, verdict, times) = check_times(&file);
        let cells: Vec<String> = times.iter().map(|&ns| cell(ns, bytes)).collect();
        println!("{name:<24} {bytes:>6} {verdict:>3} {}", cells.join(" "));
    }
}

/// The sample models: medians over the accepted files and over all.
fn print_samples(folder: &Path) {
    let mut names: Vec<_> =
        std::fs::read_dir(folder).into_iter().flatten().flatten().map(|entry| entry.path()).collect();
    names.retain(|name| name.extension().is_some_and(|ending| ending == "glb"));
    names.sort();
    let mut rows = Vec::new();
    for (done, name) in names.iter().enumerate() {
        let Ok(file) = std::fs::read(name) else { continue };
        rows.push(check_times(&file));
        if done % 25 == 24 {
            eprintln!("  {} of {} samples", done + 1, names.len());
        }
    }
    for (kind, accepted) in [("accepted", true), ("all", false)] {
        let chosen: Vec<_> =
            rows.iter().filter(|(bytes, verdict, _)| *bytes > 0 && (!accepted || *verdict == 0)).collect();
        let medians: Vec<String> = (0..4)
            .map(|column| {
                let mut values: Vec<f64> = chosen
                    .iter()
                    .map(|(bytes, _, times)| times[column] / *bytes as f64)
                    .filter(|ns| !ns.is_nan())
                    .collect();
                format!("{:>22.2}", median(&mut values))
            })
            .collect();
        println!("{:<34} {}", format!("samples, {kind}: {}, median", chosen.len()), medians.join(" "));
    }
}

fn print_components() {
    println!("\none component: ns");
    println!("{:<34} {:>10} {:>20} {:>10} {:>12}", "", "library", "independent reader", "tinygltf", "plain load");
    let rows = [
        ("dense", files::readings(None, 0)),
        ("strided", files::readings(Some(16), 0)),
        ("sparse, 10 entries", files::readings(None, 10)),
        ("sparse, 1,000 entries", files::readings(None, 1000)),
        ("sparse, 6,000 entries", files::readings(None, 6000)),
    ];
    for (name, file) in rows {
        let (verdict, _, words) = checked(&Independent, &file);
        assert_eq!(verdict, 0, "{name}");
        let tables = Tables::from_words(&words);
        let start = tables.buffer_start as usize;
        let mut at = 0;
        // Elements in steps that meet all of them.
        let mut next = || {
            at = (at + 7) % 10_000;
            black_box((at, at % 3))
        };
        let library = time(|| {
            let (element, component) = next();
            Device.component(&file, &words, 0, element, component)
        });
        let reader = time(|| {
            let (element, component) = next();
            reader::component(&file, &tables, 0, element, component)
        });
        let tiny = tiny::open(&file).filter(|_| !name.starts_with("sparse")).map_or(f64::NAN, |model| {
            time(|| {
                let (element, component) = next();
                model.component(0, element, component)
            })
        });
        let floor = time(|| {
            let (element, component) = next();
            let place = start + 12 * element as usize + 4 * component as usize;
            file[place..].first_chunk::<4>().map(|bytes| u32::from_le_bytes(*bytes))
        });
        let tiny = if tiny.is_nan() { "-".to_string() } else { format!("{tiny:.1}") };
        println!("{name:<34} {library:>10.1} {reader:>20.1} {tiny:>10} {floor:>12.1}");
    }
}

fn print_walks() {
    println!("\nwalk of 128 nodes: ns");
    for (name, chain) in [("one chain", true), ("one parent", false)] {
        let (verdict, _, words) = checked(&Independent, &files::nodes(chain));
        assert_eq!(verdict, 0, "{name}");
        let tables = Tables::from_words(&words);
        let mut list = [0; 128];
        assert_eq!(Device.walk(&words, 0, &mut list), (0, 128));
        let library = time(|| Device.walk(&words, 0, &mut list));
        let reader = time(|| reader::walk(&tables, 0, 128));
        println!("{name:<34} {library:>10.0} {reader:>20.0}");
    }
}

fn main() {
    println!("library: {}", device::NAME);
    if tiny::load(&files::model(1024)).is_none() {
        println!("tinygltf: not compiled in (the variable TINYGLTF names no headers)");
    }
    print_checks();
    if let Some(folder) = std::env::args().nth(1) {
        print_samples(Path::new(&folder));
    }
    print_components();
    print_walks();
}
