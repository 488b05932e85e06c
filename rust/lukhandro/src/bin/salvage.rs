//! `salvage [--yes] [FILE]` saves what is whole and good in a damaged model file of version 1, from standard input if none is
//! named. The saved file goes to standard output, and what is said goes to standard error: first whether the file needs
//! saving at all, then a line for each row dropped and each start value missing or reset.
//!
//! A whole file whose inputs lead round, which build permits, would lose the rows of that chain and all above them: what
//! would be lost is said, and nothing is written without `--yes`. Status 0 if a file was written, 1 if none was, 2 if the
//! command was called wrongly.

use std::env;
use std::fs::File;
use std::io::{self, Read, Write};
use std::process::ExitCode;

use lukhandro::{Model, Salvage, salvage};

const USAGE: &str = "usage: salvage [--yes] [FILE] < DAMAGED > SAVED";

fn main() -> io::Result<ExitCode> {
    let (mut agreed, mut file) = (false, None);
    for word in env::args().skip(1) {
        match word.as_str() {
            "--yes" => agreed = true,
            "--help" | "-h" => {
                println!("{USAGE}\n\nSaves what is whole and good in a damaged model file of version 1. It says on");
                println!("standard error whether the file needs it and what is lost; a whole file that would");
                println!("lose rows is saved only with --yes.");
                return Ok(ExitCode::SUCCESS);
            }
            "--version" => {
                println!("salvage {}, interface {}", env!("CARGO_PKG_VERSION"), lukhandro::interface());
                return Ok(ExitCode::SUCCESS);
            }
            "-" if file.is_none() => file = Some(None),
            name if file.is_none() && !name.starts_with('-') => file = Some(Some(name.to_owned())),
            _ => {
                eprintln!("{USAGE}");
                return Ok(ExitCode::from(2));
            }
        }
    }
    let mut bytes = Vec::new();
    match file.flatten() {
        None => io::stdin().lock().read_to_end(&mut bytes)?,
        Some(name) => match File::open(&name).and_then(|mut file| file.read_to_end(&mut bytes)) {
            Ok(read) => read,
            Err(error) => {
                eprintln!("salvage: cannot read {name}: {error}");
                return Ok(ExitCode::from(2));
            }
        },
    };
    save(&bytes, agreed)
}

/// Says whether the file needs saving and what is lost, and writes what is saved.
fn save(bytes: &[u8], agreed: bool) -> io::Result<ExitCode> {
    let mut told = io::BufWriter::new(io::stderr().lock());
    let saved = match salvage(bytes) {
        Ok(saved) => saved,
        Err(refused) => {
            writeln!(told, "{refused}")?;
            if Model::read_bounded(bytes).is_ok() {
                writeln!(told, "the file is whole: it needs no saving")?;
            }
            told.flush()?;
            return Ok(ExitCode::FAILURE);
        }
    };
    let Salvage { rows, values, .. } = &saved;
    let loses = !rows.is_empty() || !values.is_empty();
    let whole = match Model::read(bytes) {
        Ok(_) if loses => {
            writeln!(
                told,
                "whole: the file is read and built as it is, its inputs lead round, and saving it would lose:"
            )?;
            true
        }
        Ok(_) => {
            writeln!(told, "whole: the file needs no saving, and comes out as it is")?;
            true
        }
        Err(refused) => {
            writeln!(told, "damaged: {refused}")?;
            false
        }
    };
    for row in rows {
        writeln!(told, "row {row} dropped")?;
    }
    for variable in values {
        writeln!(told, "value {variable} missing or reset")?;
    }
    if whole && loses && !agreed {
        writeln!(told, "nothing is written; `salvage --yes` writes the file without them")?;
        told.flush()?;
        return Ok(ExitCode::FAILURE);
    }
    told.flush()?;
    let mut out = io::stdout().lock();
    out.write_all(&saved.file)?;
    out.flush()?;
    Ok(ExitCode::SUCCESS)
}
