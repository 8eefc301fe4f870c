//! Writes generated traces: one to standard output, or many into a directory.

use std::error::Error;
use std::io::{self, Write};
use std::path::Path;
use std::{env, fs};

use second::generate::{generate, generate_mixed, Kind};

const USAGE: &str = "usage: generate SEED KIND INDEX
       generate --dir DIR --seed SEED --count N [--kind KIND]
KIND is walk, boundary, broken, board, long or mixed";

fn main() -> Result<(), Box<dyn Error>> {
    let arguments: Vec<String> = env::args().skip(1).collect();
    let arguments: Vec<&str> = arguments.iter().map(String::as_str).collect();
    match arguments[..] {
        ["--dir", directory, "--seed", seed, "--count", count] => {
            write_directory(directory, seed.parse()?, count.parse()?, "mixed")
        }
        ["--dir", directory, "--seed", seed, "--count", count, "--kind", kind] => {
            write_directory(directory, seed.parse()?, count.parse()?, kind)
        }
        [seed, kind, index] => {
            let trace = trace(seed.parse()?, kind, index.parse()?)?;
            Ok(io::stdout().lock().write_all(&trace)?)
        }
        _ => Err(USAGE.into()),
    }
}

fn write_directory(
    directory: &str,
    seed: u64,
    count: u64,
    kind: &str,
) -> Result<(), Box<dyn Error>> {
    fs::create_dir_all(directory)?;
    for index in 0..count {
        let file = Path::new(directory).join(format!("{index:05}.trace"));
        fs::write(file, trace(seed, kind, index)?)?;
    }
    Ok(())
}

fn trace(seed: u64, kind: &str, index: u64) -> Result<Vec<u8>, Box<dyn Error>> {
    if kind == "mixed" {
        return Ok(generate_mixed(seed, index));
    }
    let kind = Kind::from_name(kind).ok_or(USAGE)?;
    Ok(generate(seed, kind, index))
}
