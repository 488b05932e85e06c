//! The command `salvage`: the saved file on standard output, and what is said of it on standard error.

use std::io::Write;
use std::process::{Command, Output, Stdio};

use lukhandro::{Model, Row};

/// What the command makes of an input.
fn saved(input: &[u8], words: &[&str]) -> Output {
    let mut command = Command::new(env!("CARGO_BIN_EXE_salvage"));
    let piped = command.args(words).stdin(Stdio::piped()).stdout(Stdio::piped()).stderr(Stdio::piped());
    let mut running = piped.spawn().expect("the command starts");
    // a command that is called wrongly ends without reading
    let _ = running.stdin.take().expect("a pipe to the command").write_all(input);
    running.wait_with_output().expect("the command ends")
}

fn said(output: &Output) -> String {
    String::from_utf8_lossy(&output.stderr).into_owned()
}

#[test]
fn what_is_saved_and_what_is_not() {
    let model = Model::build(&[4, 9, 0, 0], &[Row::max(2, &[0, 1]), Row::min(3, &[0, 1])]).expect("a model");
    let file = model.write().expect("a file");
    let whole = saved(&file, &[]);
    assert!(whole.status.success());
    assert_eq!(said(&whole), "whole: the file needs no saving, and comes out as it is\n");
    assert_eq!(whole.stdout, file);

    let mut damaged = file[..file.len() - 1].to_vec();
    damaged[32] = 7;
    let part = saved(&damaged, &[]);
    assert!(part.status.success());
    let lines = "damaged: refused 14 20: the file has 79 bytes and its header says 80: 1 are missing\n\
        row 1 dropped\nvalue 2 missing or reset\n";
    assert_eq!(said(&part), lines);
    assert_eq!(Model::read(&part.stdout).expect("a model").stored(), [4, 9, 9, 0]);
}

#[test]
fn a_whole_file_whose_inputs_lead_round() {
    let file = include_bytes!("../../../examples/interlined.lkh");
    let asked = saved(file, &[]);
    assert_eq!((asked.status.code(), &asked.stdout[..]), (Some(1), &[][..]));
    let lines = said(&asked);
    assert!(lines.starts_with("whole: the file is read and built as it is"), "{lines}");
    for row in 0..5 {
        assert!(lines.contains(&format!("row {row} dropped\n")), "{lines}");
    }
    assert!(lines.ends_with("nothing is written; `salvage --yes` writes the file without them\n"), "{lines}");

    let agreed = saved(file, &["--yes"]);
    assert!(agreed.status.success());
    let left = Model::read(&agreed.stdout).expect("a model");
    assert_eq!((left.stored().len(), left.rows().count()), (8, 0));
}

#[test]
fn a_file_that_is_refused() {
    let refused = saved(&[1, 0, 9], &[]);
    assert_eq!((refused.status.code(), &refused.stdout[..]), (Some(1), &[][..]));
    let line = "refused 14 3: the file has 3 bytes, and a header alone has 24: it is cut off, or no model file\n";
    assert_eq!(said(&refused), line);

    let bounded = Model::build(&[4, 9, 0], &[Row::max(2, &[0, 1])]).expect("a model").write_bounded().expect("a file");
    let refused = saved(&bounded, &[]);
    assert_eq!(refused.status.code(), Some(1));
    let lines = "refused 14 0: the file is of version 2, with bounds: read it as such, or move it to version 1\n\
        the file is whole: it needs no saving\n";
    assert_eq!(said(&refused), lines);
}

#[test]
fn words_of_the_command() {
    let file = Model::build(&[4], &[]).expect("a model").write().expect("a file");
    for words in [&["-"][..], &["--yes"], &["--yes", "-"]] {
        assert_eq!(saved(&file, words).stdout, file);
    }
    for (words, status) in
        [(&["--help"][..], 0), (&["--version"], 0), (&["--no"], 2), (&["-", "-"], 2), (&["/none"], 2)]
    {
        assert_eq!(saved(&file, words).status.code(), Some(status), "{words:?}");
    }
    let version = saved(&[], &["--version"]);
    let line = format!("salvage {}, interface {}\n", env!("CARGO_PKG_VERSION"), lukhandro::INTERFACE);
    assert_eq!(String::from_utf8_lossy(&version.stdout), line);
}
