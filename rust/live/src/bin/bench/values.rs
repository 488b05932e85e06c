//! The program `values` on large models: how long it takes from its start to its end.

use std::fs::{self, File};
use std::io;
use std::path::{Path, PathBuf};
use std::process::Stdio;
use std::time::{Duration, Instant};

use compare::{Call, Case, Engine, Row, Second, of_rows};
use served::command_for;

/// Runs of each model.
const RUNS: usize = 200;

/// The largest file that `values` takes.
const MOST_BYTES: usize = 65_536;

/// A model file by what it is.
struct Model {
    name: &'static str,
    bytes: Vec<u8>,
}

/// Prints the least time of each model, in milliseconds, the models by turns; the first, no input, is the start alone.
pub fn print() {
    let program = Path::new(env!("CARGO_MANIFEST_DIR")).join("../../target/bin/values");
    if !program.exists() {
        println!("left out: the program `values`; `tools/values` puts it there");
        return;
    }
    let models = models();
    match least_times(&program, &models) {
        Ok(times) => {
            println!("the program values                    bytes        ms");
            for (Model { name, bytes }, time) in models.iter().zip(times) {
                println!("{name:<35} {:>7} {:>9.3}", bytes.len(), time.as_secs_f64() * 1e3);
            }
        }
        Err(error) => println!("left out: the program `values`: {error}"),
    }
}

fn least_times(program: &Path, models: &[Model]) -> io::Result<Vec<Duration>> {
    let folder = std::env::temp_dir().join(format!("values-{}", std::process::id()));
    fs::create_dir_all(&folder)?;
    let times = times_in(&folder, program, models);
    fs::remove_dir_all(&folder)?;
    times
}

fn times_in(folder: &Path, program: &Path, models: &[Model]) -> io::Result<Vec<Duration>> {
    let files: Vec<PathBuf> = (0..models.len()).map(|model| folder.join(model.to_string())).collect();
    for (file, model) in files.iter().zip(models) {
        fs::write(file, &model.bytes)?;
    }
    let mut least = vec![Duration::MAX; models.len()];
    for _ in 0..RUNS {
        for (file, least) in files.iter().zip(&mut least) {
            *least = time_of(program, file)?.min(*least);
        }
    }
    Ok(least)
}

/// One run of the program on a file.
fn time_of(program: &Path, file: &Path) -> io::Result<Duration> {
    let mut command = command_for(program, None);
    command.stdin(File::open(file)?).stdout(Stdio::null());
    let start = Instant::now();
    let status = command.status()?;
    let time = start.elapsed();
    if status.success() { Ok(time) } else { Err(io::Error::other(format!("ended with {status}"))) }
}

/// No input; chains and rows side by side; and the largest models that `values` takes, by what they have most of.
fn models() -> Vec<Model> {
    let named = |name, starts, rows: &[Row]| {
        let bytes = file_of(of_rows(starts, rows));
        assert!(bytes.len() <= MOST_BYTES, "{name}: {} bytes", bytes.len());
        Model { name, bytes }
    };
    let one_start = |rows: u16| [vec![7], vec![0; rows.into()]].concat();
    let chain = |rows: u16| (1..=rows).rev().map(|makes| one_more(makes, makes - 1)).collect::<Vec<_>>();
    let beside: Vec<Row> = (1..=3000).map(|makes| one_more(makes, 0)).collect();
    let all: Vec<u16> = (0..256).collect();
    let wide: Vec<Row> = (256..318).map(|makes| Row::plain(1, makes, &all)).collect();
    vec![
        Model { name: "no input", bytes: Vec::new() },
        named("a chain of 3,000 rows", one_start(3000), &chain(3000)),
        named("3,000 rows side by side", one_start(3000), &beside),
        named("the longest chain, 3,275 rows", one_start(3275), &chain(3275)),
        named("the most variables, 4,096", vec![1; 4096], &[]),
        named("the most entries, 62 rows of 256", [vec![1; 256], vec![0; 62]].concat(), &wide),
    ]
}

/// The row that makes a variable one more than another.
fn one_more(makes: u16, than: u16) -> Row {
    Row { parameter: 1, ..Row::plain(1, makes, &[than]) }
}

/// The file of a model.
fn file_of(build: Case) -> Vec<u8> {
    let length = 24 + 4 * build.n + 12 * build.m + 4 * build.e;
    let mut write = Case { call: Call::Write, bytes: vec![0; length].into(), ..build };
    Second.answer(&mut write);
    write.bytes.to_vec()
}
