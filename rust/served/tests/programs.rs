//! The C programs print what they must, and the server ends when and how it must.

use std::io::Write;
use std::process::Stdio;

use compare::deep::{calls, models};
use compare::{Case, Second};
use served::{Served, program};

/// What a C program prints.
fn printed(name: &str) -> String {
    let output = program(name, None).output().expect("the program starts");
    assert!(output.status.success(), "{name}: {}", output.status);
    String::from_utf8(output.stdout).expect("text")
}

#[test]
fn the_c_example() {
    let expected = "\
number 0, place 0: 6 departures
every twelve minutes: 5 departures, number 0
taken back: 6 departures, number 0
once more: number 15
closed at seven: 0 departures, no last one for reason 5
a slipped digit: number 17, place 0
";
    assert_eq!(printed("headway"), expected);
}

#[test]
fn the_ten_lines_in_c() {
    let expected = "\
6 departures; every twelve minutes 5
a slipped digit: the pair at this place has a value outside its variable's bounds: give another, or widen them
";
    assert_eq!(printed("sheet"), expected);
}

/// What the example on frequencies.txt prints for a trip of a file, and the status with which it ends.
fn timetable(trip: &str, file: &[u8]) -> (String, Option<i32>) {
    let mut command = program("timetable", None);
    let mut running =
        command.arg(trip).stdin(Stdio::piped()).stdout(Stdio::piped()).spawn().expect("the program starts");
    running.stdin.take().expect("a pipe to the program").write_all(file).expect("the program reads");
    let output = running.wait_with_output().expect("the program ends");
    (String::from_utf8(output.stdout).expect("text"), output.status.code())
}

#[test]
fn the_timetable_in_c() {
    let sample = include_bytes!("../../../examples/feed/frequencies.txt");
    let (printed, status) = timetable("CITY1", sample);
    assert!(printed.starts_with("line 3, every 1800 seconds from 6:00:00 to 7:59:59\n"), "{printed}");
    assert!(printed.contains("\n52 departures 6:00:00 6:30:00 ") && printed.ends_with(" 21:30:00\n"), "{printed}");
    assert_eq!(status, Some(0));
    let quoted = b"trip_id,start_time,end_time,headway_secs\n\"a \"\"b\"\"\",24:00:00,24:02:00,60\n";
    let expected = "line 2, every 60 seconds from 24:00:00 to 24:02:00\n2 departures 24:00:00 24:01:00\n";
    assert_eq!(timetable("a \"b\"", quoted), (expected.to_string(), Some(0)));
    assert_eq!(timetable("B", quoted), ("0 departures\n".to_string(), Some(0)));
    let (printed, status) = timetable("A", b"trip_id,start_time,end_time,headway_secs\n\nA,6:00:00,7:00:00,60\n");
    assert!(
        printed.starts_with("line 2: the line at this place has another number of fields than the first"),
        "{printed}"
    );
    assert_eq!(status, Some(1));
    let twice = b"trip_id,start_time,end_time,headway_secs\nA,6:00:00,7:00:00,60\nA,6:59:59,8:00:00,60\n";
    let (printed, status) = timetable("A", twice);
    assert!(printed.ends_with("the board is refused with 3 at window 0\n"), "{printed}");
    assert_eq!(status, Some(1));
    let (printed, status) = timetable("A", &[b'\n'; (1 << 20) + 1]);
    assert_eq!((&*printed, status), ("more than 1048576 bytes: give this program a greater BYTES\n", Some(1)));
}

#[test]
fn every_function_of_a_model_in_c() {
    let expected = "\
build 0 0 9: accepted
5 5 8 1 6 5 8 8 2 2 3 3 7
keep 0 0 3: accepted
last is -2147483648: the headway is 0 or less
beyond -2147483648 0
trial 0 0 2: accepted
results 8 9, why 0 0
trial of nothing 0 0 0: accepted
trial by no route 9 0 0: there is no such route: it is 1, 2 or 3
keep of nothing 0 0 0: accepted
keep of what is made 10 0 0: the pair at this place names a variable that a row makes, or one that is not there: move search variables only
keep of too much 1 0 0: a count is outside its bound, or a buffer is shorter than the counts ask: see LUKHANDRO_MOST_..
taking back 0 0 0: accepted
taking back 0 0 3: accepted
taking back 15 0 0: no kept move is left to take back
figures 0, 3 accepted, 8 to 10, sum 27
twice 0, 6 accepted, 8 to 10, sum 54
trials 0 0 2: accepted
0 0 0: 8 0
0 0 1: 9 0
0 0 1: 10 0
keep 0 0 8: accepted
write short 1 0 0: a count is outside its bound, or a buffer is shorter than the counts ask: see LUKHANDRO_MOST_..
write 0 0 0: accepted
read 0 0 9: accepted
9, bounds 0 to 2
write 0 0 0: accepted
read 0 0 9: accepted
9, bounds -2147483647 to 2147483647
read 14 20 0: this is no whole model file of the version asked for: its header is wrong at this byte, or it has only so many bytes
-2147483648
trial 1 0 0: a count is outside its bound, or a buffer is shorter than the counts ask: see LUKHANDRO_MOST_..
round 0 0 2: accepted
0 25200 25800 25200
keep 20 2 0: the variable at this place cannot be worked out, since the chosen candidates lead round: choose otherwise
too many 1 0 0: a count is outside its bound, or a buffer is shorter than the counts ask: see LUKHANDRO_MOST_..
none 1 0 0: a count is outside its bound, or a buffer is shorter than the counts ask: see LUKHANDRO_MOST_..
nothing: build 0 and 7, read 14 0, salvage 14 0, departures 0, inputs 0
frequencies 2 1: the first line does not name trip_id, start_time, end_time or headway_secs, or names one of these or exact_times twice: name each once, in this spelling
frequencies written 9 0: the file has more bytes than were lent: lend 53, and of each window twice its name's length and 42 more
interface 1, 1; a model has 287056 bytes
";
    assert_eq!(printed("model"), expected);
}

#[test]
fn every_call_from_c() {
    let expected = "\
build 0 0 3, session 0 3 0, stored 6 28200 26, reasons 0 0 0
readers of 2 from place 4 to 6: 0 1
trial 0 0 3, session 0 3 0, stored 6 28200 26, reasons 0 0 0
results 30 28800, trial 28801, flags 1 1 1
why 0 0, beyond 8
trial 1 0 0, session 0 3 0, stored 6 28200 26, reasons 0 0 0
trial 1 0 0, session 0 3 0, stored 6 28200 26, reasons 0 0 0
keep 0 0 3, session 1 3 0, stored 7 28800 30, reasons 0 0 0
log of 1 move: 1 pair, variable 1 from 28800
keep 10 0 0, session 1 3 0, stored 7 28800 30, reasons 0 0 0
keep 8 0 0, session 1 3 0, stored 7 28800 30, reasons 0 0 0
taking back 8 0 0, session 1 3 0, stored 7 28800 30, reasons 0 0 0
taking back 16 0 0, session 1 3 0, stored 7 28800 30, reasons 0 0 0
taking back 0 0 3, session 0 3 0, stored 6 28200 26, reasons 0 0 0
taking back 15 0 0, session 0 3 0, stored 6 28200 26, reasons 0 0 0
trial 0 0 3, session 0 3 0, stored 6 28200 26, reasons 0 0 0
why 4 3, beyond 8
keep 1 0 0, session 0 3 0, stored 6 28200 26, reasons 0 0 0
keep 0 0 3, session 1 3 3, stored -2147483648 -2147483648 -2147483648, reasons 3 3 4
reasons of search variables 0 0 0, beyond 9
taking back 19 0 0, session 1 3 2, stored -2147483648 -2147483648 -2147483648, reasons 3 3 4
taking back 0 0 3, session 0 3 0, stored 6 28200 26, reasons 0 0 0
keep 17 0 0, session 0 3 0, stored 6 28200 26, reasons 0 0 0
keep 4 3 0, session 0 3 0, stored 6 28200 26, reasons 0 0 0
taking back 7 2 0, session 0 3 0, stored 6 28200 26, reasons 0 0 0
build 1 0 0, session 0 3 0, stored 6 28200 26, reasons 0 0 0
write 0 0 0, session 0 3 0, stored 6 28200 26, reasons 0 0 0
read 0 0 6 3 7, parameter 2
read 14 20 0 0 0
salvage 0 0 96 1 0
row 2 dropped, read 0 0 6 2 6
salvage 0 0 112 0 0
salvage 1 0 0 0 0
salvage 14 23 0 0 0
to version 2 0 0 164
read 0 0 6 3 7, bounds -2147483647 to 2147483647
to version 1 0 0 112, the same bytes 1
write 0 0 0, session 0 3 0, stored 6 28200 26, reasons 0 0 0
to version 1 18 2 0
read 14 0 0 0 0
build 0 0 3, session 0 3 0, stored 6 28200 26, reasons 0 0 0
figures 0 0, 0 blank, 22 to 30, sum 78, evaluations 6 6 4, by number 3 0 0 0 0 0 0 0 0 0 1 0 0 0 0 0 0 0 0 0 0 0 99
figures 1 0, 0 blank, -2147483648 to -2147483648, sum 0, evaluations 0 0 0, by number 3 0 0 0 0 0 0 0 0 0 1 0 0 0 0 0 0 0 0 0 0 0 99
figures 1 0, 0 blank, -2147483648 to -2147483648, sum 0, evaluations 0 0 0, by number 3 0 0 0 0 0 0 0 0 0 1 0 0 0 0 0 0 0 0 0 0 0 99
figures 0 0, 0 blank, -2147483648 to -2147483648, sum 0, evaluations 0 0 0, by number 0 0 0 0 0 0 0 0 0 0 0 0 0 0 0 0 0 0 0 0 0 0 99
figures 0 0, 0 blank, 22 to 30, sum 78, evaluations 6 6 4, by number 3 0 0 0 0 0 0 0 0 0 1 0 0 0 0 0 0 0 0 0 0 0 99
figures 1 0, 0 blank, -2147483648 to -2147483648, sum 0, evaluations 0 0 0, by number 3 0 0 0 0 0 0 0 0 0 1 0 0 0 0 0 0 0 0 0 0 0 99
figures 1 0, 0 blank, -2147483648 to -2147483648, sum 0, evaluations 0 0 0, by number 3 0 0 0 0 0 0 0 0 0 1 0 0 0 0 0 0 0 0 0 0 0 99
figures 19 3, 0 blank, -2147483648 to -2147483648, sum 0, evaluations 0 0 0, by number 3 0 0 0 0 0 0 0 0 0 1 0 0 0 0 0 0 0 0 0 0 0 99
departures 5 0 0: 0 0 0 0 0 0 0 0 0 0
departures 0 0 9: 21600 22800 24000 25200 25800 26400 27000 27600 28200 0
departures 3 0 0: 21600 22800 24000 25200 25800 26400 27000 27600 28200 0
inputs of row 1 from 3, 3: 0 1 2
inputs of row 2 from 6, 1: 3
inputs of row 3 from 0, 0:
frequencies 1 0 0: [7 7 7, 7 7 7, 7, line 7] [7 7 7, 7 7 7, 7, line 7] [7 7 7, 7 7 7, 7, line 7]
frequencies 6 3 0: [7 7 7, 7 7 7, 7, line 7] [7 7 7, 7 7 7, 7, line 7] [7 7 7, 7 7 7, 7, line 7]
frequencies 0 0 2: [56 7 1, 21600 90600 60, 0, line 2] [87 1 0, 1 25200 9, 0, line 3] [7 7 7, 7 7 7, 7, line 7]
frequencies written 9 0 0, beyond 0
frequencies written 0 0 110, beyond 0
trip_id,start_time,end_time,headway_secs,exact_times
\"a \"\"b\"\"\",06:00:00,25:10:00,60,0
C,00:00:01,07:00:00,9,0
frequencies written 7 2 0, beyond 0
";
    assert_eq!(printed("calls"), expected);
}

/// The status with which the server ends on an input.
fn ends(input: &[u8]) -> Option<i32> {
    let mut command = program("server", None);
    let mut server = command.stdin(Stdio::piped()).stdout(Stdio::null()).spawn().expect("the server starts");
    server.stdin.take().expect("a pipe to the server").write_all(input).expect("the server reads");
    server.wait().expect("the server ends").code()
}

#[test]
fn the_server_ends_with_its_input() {
    assert_eq!(ends(&[]), Some(0));
    assert_eq!(ends(&[0; 10]), Some(2), "a request that breaks off");
    assert_eq!(ends(&[0; 8 * (29 + 2 * 45)]), Some(2), "a request without a record");
}

#[test]
fn a_server_that_ends_is_noticed() {
    let cases = calls(&Second, &models()[0]);
    let (_, deep) = cases.iter().find(|(name, _)| *name == "route 2").expect("a trial by route 2");
    let server = Served::start_on(256 << 10);
    assert!(server.try_answer(&mut Case::default()).is_ok(), "a small call on a small stack");
    let ended = server.try_answer(&mut deep.clone()).expect_err("a stack that is too small");
    println!("{ended}");
    assert!(server.try_answer(&mut Case::default()).is_err(), "it does not come back");
}
