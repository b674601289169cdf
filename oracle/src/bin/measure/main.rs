//! Measures the proved library against the original, in one process and in turns. `bench/run` starts it.
mod cases;
// The comparison's tracker cells.
#[path = "../../cells.rs"]
mod cells;
mod chart;
mod library;
mod machine;
mod report;
// The comparison's generator of numbers.
#[allow(dead_code)]
#[path = "../../rng.rs"]
mod rng;

use std::{fs, io::Write, process::ExitCode};

use cases::{Bench, Sizes};
use report::{grouped, Run};

const LARGEST_REGION: usize = 268_435_456;

struct Options {
    rounds: Option<u32>,
    hostile: Option<usize>,
    quick: bool,
    write: bool,
}

fn options(words: &[String]) -> Result<Options, String> {
    let mut options = Options { rounds: None, hostile: None, quick: false, write: false };
    let mut words = words.iter();
    while let Some(word) = words.next() {
        let mut number = || {
            let text = words.next().ok_or(format!("{word} wants a number"))?;
            text.replace([',', '_'], "").parse::<usize>().map_err(|_| format!("{word}: `{text}` is no number"))
        };
        match word.as_str() {
            "--rounds" => match number()? {
                rounds @ 1..=1000 => options.rounds = Some(rounds as u32),
                _ => return Err("--rounds wants a number from 1 to 1,000".to_string()),
            },
            "--hostile" => match number()? {
                length if length > 0 && length % 16 == 0 => options.hostile = Some(length),
                _ => return Err("--hostile wants a multiple of 16".to_string()),
            },
            "--quick" => options.quick = true,
            "--write" => options.write = true,
            _ => return Err(format!("{word} is no option; bench/run --help tells them")),
        }
    }
    Ok(options)
}

fn sizes(options: &Options) -> Result<Sizes, String> {
    let quick = options.quick;
    let sizes = Sizes {
        rounds: options.rounds.unwrap_or(if quick { 2 } else { 5 }),
        region: if quick { LARGEST_REGION / 8 } else { LARGEST_REGION },
        hostile: match options.hostile {
            Some(length) => vec![length],
            None if quick => vec![1 << 16, 1 << 18],
            None => vec![1 << 16, 1 << 18, 1 << 20],
        },
        appends: if quick { 50_000 } else { 200_000 },
        append_bytes: if quick { 1 << 24 } else { 1 << 26 },
        pairs: if quick { 50_000 } else { 200_000 },
    };
    if sizes.hostile.iter().any(|length| *length > sizes.region) {
        return Err(format!("--hostile: at most the region's {} bytes", grouped(sizes.region as u64)));
    }
    Ok(sizes)
}

/// Measures, prints, and writes the documents where that is wanted. The words of the command line are told with the figures.
fn measure(sizes: Sizes, command: String, write: bool) -> Result<(), String> {
    let load_before = machine::load();
    let sums = cases::check_checksums()?;
    eprintln!("checksums: {} sums of all forms and of the library as the catalogue's rule gives them", grouped(sums));
    let mut bench = Bench::new(sizes)?;
    bench.run()?;
    let run = Run {
        processors: machine::processors(),
        load_before,
        load_after: machine::load(),
        day: machine::day(),
        command,
        rows: bench.rows,
        hostile: bench.hostile,
        full: bench.full,
        system: bench.system,
        sizes: bench.sizes,
    };
    if write {
        for (path, text) in [("docs/BENCH.md", run.document()), ("docs/bench.svg", chart::svg(&run))] {
            fs::write(path, text).map_err(|why| format!("{path} can't be written: {why}"))?;
            eprintln!("written: {path}");
        }
    }
    std::io::stdout().write_all(run.text().as_bytes()).map_err(|why| format!("the table can't be written: {why}"))
}

fn main() -> ExitCode {
    let words: Vec<String> = std::env::args().skip(1).collect();
    let command = ["bench/run"].into_iter().chain(words.iter().map(String::as_str)).collect::<Vec<_>>().join(" ");
    let (options, sizes) = match options(&words).and_then(|options| Ok((sizes(&options)?, options))) {
        Ok((sizes, options)) => (options, sizes),
        Err(why) => {
            eprintln!("bench/run: {why}");
            return ExitCode::from(2);
        }
    };
    match measure(sizes, command, options.write) {
        Ok(()) => ExitCode::SUCCESS,
        Err(why) => {
            eprintln!("bench/run: {why}");
            ExitCode::FAILURE
        }
    }
}
