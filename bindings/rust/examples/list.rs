//! Prints the listing of a card image: `cargo run --example list FILE`.

use std::process::ExitCode;

use locker_log::{read_header, Region, HEADER_LENGTH};

fn list(file: &[u8]) -> Result<(), Box<dyn std::error::Error>> {
    let header = read_header(file)?;
    let region = Region::new(&file[HEADER_LENGTH..], header);
    let bound = region.used_bound()?;
    println!("file {} of version {}, {bound} bytes in use", header.ordinal, header.version);
    for entry in region.listing(bound) {
        let entry = entry?;
        println!(
            "{:>9} {:?} namespace {} key {:?} value {:?}",
            entry.offset(),
            entry.kind(),
            entry.namespace(),
            String::from_utf8_lossy(entry.key()),
            String::from_utf8_lossy(entry.value())
        );
    }
    println!("durable end {}", region.durable_end(bound)?.end);
    Ok(())
}

fn main() -> ExitCode {
    let Some(path) = std::env::args_os().nth(1) else {
        eprintln!("usage: list FILE");
        return ExitCode::from(2);
    };
    let file = match std::fs::read(&path) {
        Ok(file) => file,
        Err(error) => {
            eprintln!("list: {}: {error}", path.to_string_lossy());
            return ExitCode::from(2);
        }
    };
    match list(&file) {
        Ok(()) => ExitCode::SUCCESS,
        Err(error) => {
            eprintln!("list: {error}");
            ExitCode::FAILURE
        }
    }
}
