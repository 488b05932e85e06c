//! frequencies.txt of up to eight megabytes: the proved reader and writer beside readers written by hand in safe Rust, which
//! split the bytes themselves and give the same rows, and beside Python's csv, which is what feeds are read with today.

use std::fs;
use std::hint::black_box;
use std::process::Command;
use std::time::Instant;

use lukhandro::lent::{self, NamedWindows, WindowRows};

use crate::by_hand;

/// Rounds of each reader.
const ROUNDS: usize = 24;

/// The rows of the windows that are read.
#[derive(Clone, Debug, Default, PartialEq)]
pub struct Rows {
    pub name_places: Vec<u32>,
    pub name_lengths: Vec<u32>,
    pub name_doubled: Vec<u8>,
    pub starts: Vec<i32>,
    pub ends: Vec<i32>,
    pub headways: Vec<i32>,
    pub exacts: Vec<u8>,
    pub lines: Vec<u32>,
}

impl Rows {
    /// Room for as many windows as a file has line feeds.
    fn for_file(bytes: &[u8]) -> Rows {
        let most = bytes.iter().filter(|&&byte| byte == b'\n').count();
        Rows {
            name_places: vec![0; most],
            name_lengths: vec![0; most],
            name_doubled: vec![0; most],
            starts: vec![0; most],
            ends: vec![0; most],
            headways: vec![0; most],
            exacts: vec![0; most],
            lines: vec![0; most],
        }
    }
}

fn proved(bytes: &[u8], rows: &mut Rows) -> usize {
    let Rows { name_places, name_lengths, name_doubled, starts, ends, headways, exacts, lines } = rows;
    let outcome = lent::frequencies(
        bytes,
        WindowRows { name_places, name_lengths, name_doubled, starts, ends, headways, exacts, lines },
    );
    assert_eq!(outcome.number, 0, "line {}", outcome.place);
    outcome.length
}

fn written(bytes: &[u8], rows: &Rows, windows: usize, file: &mut [u8]) -> usize {
    let Rows { name_places, name_lengths, name_doubled, starts, ends, headways, exacts, .. } = rows;
    let lent =
        NamedWindows { windows, text: bytes, name_places, name_lengths, name_doubled, starts, ends, headways, exacts };
    let outcome = lent::write_frequencies(lent, file);
    assert_eq!(outcome.number, 0, "window {}", outcome.place);
    outcome.length
}

/// A file of about so many bytes whose header and rows are given.
fn file_of(size: usize, header: &str, row: impl Fn(usize) -> String) -> Vec<u8> {
    let mut file = header.to_string();
    for line in 0.. {
        if file.len() >= size {
            break;
        }
        file.push_str(&row(line));
    }
    file.into_bytes()
}

/// The files by name.
fn files() -> Vec<(String, Vec<u8>)> {
    let head = "trip_id,start_time,end_time,headway_secs\n";
    let clock = |line: usize| format!("{}:{:02}:00", 6 + line % 20, line % 60);
    let plain = |line: usize| format!("CITY{line},{},{},{}\n", clock(line), clock(line + 60), 60 * (1 + line % 30));
    let quoted =
        |line: usize| format!("\"City, \"\"{line}\"\"\",\"{}\",\"{}\",\"600\"\n", clock(line), clock(line + 1));
    let wide = |line: usize| {
        format!("a,{},b,CITY{line},,,{},some words in a field,1,600,\"x, y\",z\r\n", clock(line), clock(line + 1))
    };
    let wide_head = "c1,start_time,c2,trip_id,c3,c4,end_time,c5,exact_times,headway_secs,c6,c7\r\n";
    let mut files: Vec<(String, Vec<u8>)> = [10, 14, 17, 20, 23]
        .map(|bits| (format!("plain, {} KB", (1 << bits) / 1024), file_of(1 << bits, head, plain)))
        .to_vec();
    files.push(("quoted, 1024 KB".to_string(), file_of(1 << 20, head, quoted)));
    files.push(("other columns, 1024 KB".to_string(), file_of(1 << 20, wide_head, wide)));
    files
}

/// The best time of each, by turns, in seconds.
fn best<const COUNT: usize>(calls: [&mut dyn FnMut() -> usize; COUNT]) -> [f64; COUNT] {
    let mut best = [f64::MAX; COUNT];
    for turn in 0..ROUNDS {
        for place in 0..COUNT {
            let which = (place + turn) % COUNT;
            let start = Instant::now();
            black_box((calls[which])());
            best[which] = best[which].min(start.elapsed().as_secs_f64());
        }
    }
    best
}

/// The seconds that Python's csv takes for a file, if there is a Python.
fn by_python(bytes: &[u8]) -> Option<f64> {
    let path = std::env::temp_dir().join(format!("frequencies-{}.txt", std::process::id()));
    fs::write(&path, bytes).ok()?;
    let script = concat!(env!("CARGO_MANIFEST_DIR"), "/src/bin/bench/frequencies.py");
    let output = Command::new("python3").arg(script).arg(&path).output();
    let _ = fs::remove_file(&path);
    String::from_utf8(output.ok()?.stdout).ok()?.trim().parse().ok()
}

/// The reader by hand refuses as the proved one does.
fn refuse_alike() {
    let rows = [
        "A,6:00:00",
        "A\",6:00:00,7:00:00,60",
        "A,6:60:00,7:00:00,60",
        "A,6:00:00,7:00:00,0",
        "\"\",6:00:00,7:00:00,60",
    ];
    for (place, row) in rows.iter().enumerate() {
        let file =
            format!("trip_id,start_time,end_time,headway_secs\r\n\"B\nC\",6:00:00,7:00:00,60\r\n{row}\nx,y\"z,,\n");
        let file = &file.as_bytes()[..file.len() - if place == 1 { 0 } else { 8 }];
        let [mut one, mut other] = [(); 2].map(|()| Rows::for_file(file));
        let Rows { name_places, name_lengths, name_doubled, starts, ends, headways, exacts, lines } = &mut one;
        let lent = WindowRows { name_places, name_lengths, name_doubled, starts, ends, headways, exacts, lines };
        let outcome = lent::frequencies(file, lent);
        assert_eq!(by_hand::read(file, &mut other), Err((outcome.number, outcome.place)), "{row}");
        assert_eq!(by_hand::read_with_memory(file, &mut other), Err((outcome.number, outcome.place)), "{row}");
    }
}

/// Prints the table: times in milliseconds, and behind each reader by hand how many times its time the proved one takes.
pub fn print() {
    refuse_alike();
    println!(
        "frequencies.txt          windows    read       by hand    with memory     as it goes  ns/byte  csv/read  written"
    );
    for (name, bytes) in files() {
        let [mut one, mut other, mut third, mut fourth] = [(); 4].map(|()| Rows::for_file(&bytes));
        let windows = proved(&bytes, &mut one);
        assert_eq!(by_hand::read(&bytes, &mut other), Ok(windows), "{name}");
        assert_eq!(by_hand::read_with_memory(&bytes, &mut third), Ok(windows), "{name}");
        assert_eq!(by_hand::read_as_it_goes(&bytes, &mut fourth), Ok(windows), "{name}");
        assert!(one == other && one == third && one == fourth, "{name}: the same rows");
        let mut file = vec![0; 53 + 3 * bytes.len()];
        let lent = one.clone();
        let [read, hand, memory, goes, write] = best([
            &mut || proved(&bytes, &mut one),
            &mut || by_hand::read(&bytes, &mut other).expect("a good file"),
            &mut || by_hand::read_with_memory(&bytes, &mut third).expect("a good file"),
            &mut || by_hand::read_as_it_goes(&bytes, &mut fourth).expect("a good file"),
            &mut || written(&bytes, &lent, windows, &mut file),
        ]);
        let csv = by_python(&bytes).map_or("-".to_string(), |csv| format!("{:.0}", csv / read));
        print!("{name:<23} {windows:>8} {:>7.3}", read * 1e3);
        for other in [hand, memory, goes] {
            print!(" {:>8.3} {:>5.2}", other * 1e3, read / other);
        }
        println!(" {:>8.2} {csv:>9} {:>8.3}", read * 1e9 / bytes.len() as f64, write * 1e3);
    }
}
