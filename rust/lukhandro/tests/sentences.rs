//! What a refusal says: which of the alternatives of its number it was, as the data decides.

use lukhandro::{
    BLANK, FULL, Kind, Model, NOTHING_ASKED, NOTHING_MOVED, Refused, Route, Row, salvage, to_version_1, to_version_2,
};

fn says<T: std::fmt::Debug>(result: Result<T, Refused>, sentence: &str) {
    assert_eq!(result.expect_err("a refusal").to_string(), sentence);
}

/// A window, its departures, and four times as many and two.
fn rows() -> [Row; 2] {
    [Row::departures(3, 0, 1, 2), Row::linear(4, 2, &[(3, 4)])]
}

const STARTS: [i32; 5] = [25200, 28800, 600, 0, 0];

#[test]
fn of_build() {
    let build = |rows: &[Row]| Model::build(&STARTS, rows);
    says(Model::build(&[], &[]), "refused 1 0: the model has no variable: it has at least one");
    says(Model::build(&[1; 4097], &[]), "refused 1 0: there are 4097 variables, and 4096 is the most");
    says(
        Model::build(&[0], &[Row::min(0, &[0]), Row::min(0, &[0])]),
        "refused 1 0: there are 2 rows and 1 variables, and each row makes one of its own",
    );
    says(
        Model::build_within(&STARTS, &[FULL, FULL], &rows()),
        "refused 1 0: the list of lowest numbers has 2 places and needs 5: short by 3",
    );
    says(build(&[Row::min(9, &[0])]), "refused 3 0: row 0 names variable 9, and there are only 5, from 0 on");
    says(build(&[Row::min(4, &[0, 7])]), "refused 3 0: row 0 names variable 7, and there are only 5, from 0 on");
    let short = Row { kind: Kind::Last, ..Row::min(4, &[0, 1]) };
    says(build(&[short]), "refused 3 0: row 0 is a LAST, which takes 3 inputs, and has 2");
    says(build(&[Row::min(4, &[])]), "refused 3 0: row 0 is a MIN, which takes 1 to 256 inputs, and has 0");
    says(
        build(&[Row::linear(4, 0, &[(1, 1001)])]),
        "refused 4 0: row 0 has the coefficient 1001 at variable 1, and 1000 is the most, either way",
    );
    let times = Row { entries: vec![(0, 1), (1, 2)], ..Row::max(4, &[]) };
    says(build(&[times]), "refused 4 0: row 0 has the coefficient 2 at variable 1, and in MAX it is 1");
    says(
        build(&[Row::linear(4, -1_000_000_001, &[(1, 1)])]),
        "refused 4 0: row 0 has the parameter -1000000001, and 1000000000 is the most, either way",
    );
    let shifted = Row { parameter: 1, ..Row::over(4, 1, 0) };
    says(build(&[shifted]), "refused 4 0: row 0 has the parameter 1, and in OVER it is 0");
    says(
        build(&[Row::min(4, &[0]), Row::max(4, &[0])]),
        "refused 5 1: row 1 makes variable 4, which row 0 makes already",
    );
    says(
        Model::build(&[1, 5, 0], &[Row::min(1, &[0])]),
        "refused 7 1: variable 1 starts at 5, and row 0 makes it: start it at 0",
    );
    says(Model::build(&[BLANK, 0], &[]), "refused 7 0: variable 0 has no value, and no row makes it");
}

#[test]
fn of_bounds() {
    let within = |headway, made| Model::build_within(&STARTS, &[FULL, FULL, headway, made, FULL], &rows());
    says(within((900, 300), FULL), "refused 4 2: variable 2 has 900 as its lowest number and 300 as its highest");
    says(within((BLANK, 300), FULL), "refused 4 2: variable 2 has a blank bound: the least number is -2147483647");
    says(
        within(FULL, (0, 9)),
        "refused 4 3: variable 3 has the bounds 0 to 9 though row 0 makes it: give it full ones",
    );
    says(within((60, 300), FULL), "refused 7 2: variable 2 may be from 60 to 300, and 600 is outside");
}

#[test]
fn of_moves() {
    let bounds = [FULL, FULL, (60, 7200), FULL, FULL];
    let mut sheet = Model::build_within(&STARTS, &bounds, &rows()).expect("a model");
    says(sheet.keep(&[(0, 1); 65]), "refused 1 0: there are 65 pairs in a move, and 64 is the most");
    says(
        sheet.trial(NOTHING_MOVED, &[0; 40], Route::MarkGuided),
        "refused 1 0: there are 40 variables asked, and 32 is the most",
    );
    says(
        sheet.keep(&[(0, 1), (4, 1)]),
        "refused 10 1: pair 1 of the move names variable 4, which row 1 makes: move what it is made from",
    );
    says(sheet.keep(&[(9, 1)]), "refused 10 0: pair 0 names variable 9, and there are only 5, from 0 on");
    says(
        sheet.keep(&[(1, 1), (0, 1), (1, 2)]),
        "refused 11 2: pair 2 of the move names variable 1, which pair 0 names already",
    );
    says(sheet.keep(&[(1, BLANK)]), "refused 12 0: pair 0 of the move has no value");
    says(
        sheet.trial(&[(2, 60)], &[3, 5], Route::MarkGuided),
        "refused 13 1: asked place 1 names variable 5, and there are only 5, from 0 on",
    );
    says(
        sheet.trial(&[(2, 60_000)], NOTHING_ASKED, Route::MarkGuided),
        "refused 17 0: variable 2 may be from 60 to 7200, and 60000 is outside",
    );
    says(sheet.take_back(), "refused 15 0: no kept move is left to take back");
    let many = vec![[(2, 60)]; 1001];
    says(sheet.figures(&many, 4), "refused 1 0: there are 1001 moves in a batch, and 1000 is the most");
}

#[test]
fn of_files() {
    let bounds = [FULL, FULL, (60, 7200), FULL, FULL];
    let sheet = Model::build_within(&STARTS, &bounds, &rows()).expect("a model");
    let (file, bounded) = (sheet.write().expect("a file"), sheet.write_bounded().expect("a file"));
    says(
        Model::read(b"no model"),
        "refused 14 8: the file has 8 bytes, and a header alone has 24: it is cut off, or no model file",
    );
    says(
        Model::read(&bounded),
        "refused 14 0: the file is of version 2, with bounds: read it as such, or move it to version 1",
    );
    says(
        to_version_1(&file),
        "refused 14 0: the file is of version 1, without bounds: read it as such, or move it to version 2",
    );
    says(
        to_version_1(&bounded),
        "refused 18 2: variable 2 has the bounds 60 to 7200, and a file of version 1 has none: keep version 2",
    );
    let with = |at: usize, byte: u8| {
        let mut bytes = file.clone();
        bytes[at] = byte;
        bytes
    };
    says(Model::read(&with(0, 7)), "refused 14 0: the file begins with the version 7: it is no model file");
    says(Model::read(&with(2, 0)), "refused 14 2: the model has no variable: it has at least one");
    says(salvage(&with(3, 17)), "refused 14 2: there are 4357 variables, and 4096 is the most");
    says(
        Model::read(&with(8, 28)),
        "refused 14 8: byte 8 of the file says 28 for where the start values begin, and it is 24",
    );
    says(Model::read(&with(20, 0)), "refused 14 20: byte 20 of the file says 0 for its length, and it is 84");
    says(to_version_2(&file[..80]), "refused 14 20: the file has 80 bytes and its header says 84: 4 are missing");
    says(
        Model::read(&[&file[..], &[0]].concat()),
        "refused 14 20: the file has 85 bytes and its header says 84: 1 are too many",
    );
    let kind = 24 + 4 * 5;
    says(Model::read(&with(kind, 12)), "refused 2 0: row 0 has the kind 12, which is none of 1 to 9");
    says(Model::read(&with(kind + 12 + 8, 4)), "refused 3 1: row 1 begins at entry 4, and the rows before it end at 3");
}

#[test]
fn without_a_cause_the_number_says_it() {
    for number in 1..=21 {
        let sentence = Refused::new(number, 3).to_string();
        assert!(sentence.starts_with(&format!("refused {number} 3: ")) && !sentence.contains("no check"), "{sentence}");
    }
}
