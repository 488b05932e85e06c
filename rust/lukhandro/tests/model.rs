//! The model that owns its buffers.

use lukhandro::{
    BLANK, BoardRefused, FULL, Figures, HIGHEST, Kind, LOWEST, MOST_LOGGED, Model, NOTHING_ASKED, NOTHING_MOVED,
    Reason, Refused, Route, Row, Salvage, Window, departures, salvage, to_version_1, to_version_2,
};

fn refused(number: u32, place: u32) -> Refused {
    Refused::new(number, place)
}

/// Model A of the specification.
fn model_a() -> Model {
    let rows = [Row::departures(3, 0, 1, 2), Row::last(4, 0, 1, 2), Row::linear(5, 2, &[(3, 4)])];
    Model::build(&[25200, 28800, 600, 0, 0, 0], &rows).expect("model A")
}

#[test]
fn a_model_is_built() {
    let sheet = model_a();
    assert_eq!(sheet.stored(), [25200, 28800, 600, 6, 28200, 26]);
    assert_eq!(sheet.numbers(), [0, 0, 0, 1, 1, 2]);
    assert_eq!(sheet.order(), [0, 1, 2]);
    assert_eq!((sheet.readers(2), sheet.readers(3)), (&[0, 1][..], &[2][..]));
    assert_eq!((sheet.readers(5), sheet.readers(6), sheet.readers(65535)), (&[][..], &[][..], &[][..]));
    assert_eq!((sheet.kept(), sheet.evaluations()), (0, 3));
    assert_eq!((sheet.value(5), sheet.value(6)), (Some(26), None));
}

#[test]
fn every_formula() {
    let rows = [
        Row::linear(4, 1, &[(0, 2), (1, -1)]),
        Row::min(5, &[0, 1, 2]),
        Row::max(6, &[0, 1, 2]),
        Row::element(7, 3, &[1, 2]),
        Row::shared(8, &[0, 1, 2]),
        Row::count(9, 5, &[0, 1, 2]),
        Row::over(10, 2, 0),
        Row::departures(11, 0, 2, 3),
        Row::last(12, 0, 2, 3),
    ];
    let mut starts = vec![5, 5, 8, 1];
    starts.resize(13, 0);
    let sheet = Model::build(&starts, &rows).expect("a model");
    assert_eq!(sheet.stored()[4..], [6, 5, 8, 8, 2, 2, 3, 3, 7]);
}

#[test]
fn the_three_routes_agree() {
    let mut sheet = model_a();
    for (route, evaluations) in [(Route::InputToOutput, 3), (Route::OutputToInput, 2), (Route::MarkGuided, 2)] {
        let tried = sheet.trial(&[(1, 28801)], &[5, 0, 5], route).expect("a trial");
        assert_eq!(tried.results, [30, 25200, 30]);
        assert_eq!(tried.evaluations, evaluations);
        assert_eq!(tried.flags.iter().filter(|&&flag| flag == 1).count(), evaluations as usize);
        assert_eq!(tried.values[5], 30);
        assert_eq!(sheet.evaluations(), evaluations);
    }
    assert_eq!(sheet.value(5), Some(26));
}

#[test]
fn a_blank_is_no_value() {
    let mut sheet = model_a();
    sheet.keep(&[(2, 0)]).expect("a keep");
    assert_eq!(sheet.stored()[3..], [BLANK; 3]);
    assert_eq!(sheet.value(3), None);
}

#[test]
fn the_latest_64_moves_are_taken_back() {
    let mut sheet = model_a();
    let before: Vec<Vec<i32>> = (0..70)
        .map(|k| {
            let stored = sheet.stored().to_vec();
            sheet.keep(&[(1, 28800 + 300 * k), (2, 600 + k)]).expect("a keep");
            stored
        })
        .collect();
    assert_eq!((sheet.kept(), sheet.logged()), (70, MOST_LOGGED));
    for (kept, stored) in before.iter().enumerate().skip(6).rev() {
        sheet.take_back().expect("a taking back");
        assert_eq!((sheet.stored(), sheet.kept()), (&stored[..], kept as u32));
    }
    assert_eq!(sheet.take_back().unwrap_err(), refused(15, 0));
    assert_eq!((sheet.kept(), sheet.logged()), (6, 0));
    sheet.keep(NOTHING_MOVED).expect("an empty move");
    assert_eq!((sheet.take_back(), sheet.kept()), (Ok(0), 6));
}

#[test]
fn the_number_of_blanks() {
    let mut sheet = model_a();
    let counted = |sheet: &Model| sheet.stored().iter().filter(|&&value| value == BLANK).count() as u32;
    let mut numbers = vec![sheet.blanks()];
    for (variable, value) in [(2, 0), (1, 25200), (2, 600), (1, 28800)] {
        sheet.trial(&[(variable, value)], &[5], Route::MarkGuided).expect("a trial");
        assert_eq!(sheet.blanks(), *numbers.last().expect("a number"), "a trial leaves it");
        sheet.keep(&[(variable, value)]).expect("a keep");
        assert_eq!(sheet.blanks(), counted(&sheet));
        numbers.push(sheet.blanks());
    }
    assert_eq!(numbers, [0, 3, 3, 1, 0]);
    sheet.keep(&[(3, 1)]).expect_err("a made variable");
    for before in numbers.iter().rev().skip(1) {
        sheet.take_back().expect("a kept move");
        assert_eq!((sheet.blanks(), counted(&sheet)), (*before, *before));
    }
}

#[test]
fn why_a_value_is_blank() {
    let mut sheet = model_a();
    assert_eq!(sheet.reasons(), [0; 6]);
    let mut reasons = vec![[0; 6]];
    for (variable, value, after) in [
        (2, 0, [0, 0, 0, 3, 3, 4]),
        (1, 25200, [0, 0, 0, 3, 3, 4]),
        (2, 600, [0, 0, 0, 0, 5, 0]),
        (2, 1, [0, 0, 0, 0, 5, 0]),
        (1, HIGHEST, [0, 0, 0, 0, 0, 1]),
        (0, LOWEST, [0, 0, 0, 1, 0, 4]),
    ] {
        for route in [Route::InputToOutput, Route::OutputToInput, Route::MarkGuided] {
            let tried = sheet.trial(&[(variable, value)], &[3, 4, 5, 0, 5], route).expect("a trial");
            assert_eq!(tried.why, [after[3], after[4], after[5], 0, after[5]]);
            assert_eq!((tried.reason(2), tried.reason(3), tried.reason(5)), (Reason::of(after[5]), None, None));
            for (&value, &why) in tried.results.iter().zip(tried.why) {
                assert_eq!(value == BLANK, why != 0);
            }
        }
        assert_eq!(sheet.reasons(), reasons[reasons.len() - 1], "a trial stores no reason");
        sheet.keep(&[(variable, value)]).expect("a keep");
        assert_eq!(sheet.reasons(), after);
        reasons.push(after);
    }
    assert_eq!((sheet.reason(3), sheet.reason(4)), (Some(Reason::LeftRange), None));
    assert_eq!((sheet.reason(5), sheet.reason(6), sheet.reason(65535)), (Some(Reason::BlankInput), None, None));
    sheet.keep(&[(3, 1)]).expect_err("a made variable");
    let again = Model::read(&sheet.write().expect("a file")).expect("a model");
    assert_eq!(again.reasons(), sheet.reasons());
    for before in reasons.iter().rev().skip(1) {
        sheet.take_back().expect("a kept move");
        assert_eq!(sheet.reasons(), before);
    }
}

#[test]
fn every_reason_has_its_number_and_a_sentence() {
    for number in 1..=5 {
        let reason = Reason::of(number).expect("a reason");
        assert_eq!(reason as u8, number);
        assert!(!reason.to_string().is_empty());
    }
    for number in [0, 6, 255] {
        assert_eq!(Reason::of(number), None);
    }
}

/// Model A with these bounds of its start and its headway.
fn model_a_within(start: (i32, i32), headway: (i32, i32)) -> Result<Model, Refused> {
    let rows = [Row::departures(3, 0, 1, 2), Row::last(4, 0, 1, 2), Row::linear(5, 2, &[(3, 4)])];
    Model::build_within(&[25200, 28800, 600, 0, 0, 0], &[start, FULL, headway, FULL, FULL, FULL], &rows)
}

#[test]
fn bounds_hold_in_every_call() {
    let mut sheet = model_a_within((25200, 25200), (300, 900)).expect("a model");
    assert_eq!(
        (sheet.bounds(0), sheet.bounds(1), sheet.bounds(2)),
        (Some((25200, 25200)), Some(FULL), Some((300, 900)))
    );
    assert_eq!((sheet.bounds(5), sheet.bounds(6), sheet.bounds(65535)), (Some(FULL), None, None));
    for headway in [299, 901, 60_000, LOWEST, HIGHEST] {
        assert_eq!(sheet.keep(&[(1, 5), (2, headway)]).unwrap_err(), refused(17, 1));
        assert_eq!(sheet.trial(&[(2, headway)], &[3], Route::MarkGuided).unwrap_err(), refused(17, 0));
    }
    assert_eq!(sheet.keep(&[(0, 25201)]).unwrap_err(), refused(17, 0));
    assert_eq!(sheet.keep(&[(2, BLANK)]).unwrap_err(), refused(12, 0));
    assert_eq!((sheet.kept(), sheet.logged()), (0, 0));
    let before = sheet.stored().to_vec();
    for headway in [300, 900, 300] {
        sheet.trial(&[(2, headway)], &[3], Route::OutputToInput).expect("a trial at a bound");
        sheet.keep(&[(2, headway), (0, 25200)]).expect("a keep at a bound");
    }
    for _ in 0..3 {
        sheet.take_back().expect("a kept move");
    }
    assert_eq!(sheet.stored(), before);
}

#[test]
fn bounds_are_judged_by_build() {
    let within = |start, headway| model_a_within(start, headway).map(|sheet| sheet.kept());
    assert_eq!(within((25200, 25200), (600, 600)), Ok(0));
    assert_eq!(within(FULL, (601, 900)), Err(refused(7, 2)));
    assert_eq!(within(FULL, (300, 599)), Err(refused(7, 2)));
    assert_eq!(within((1, 0), (1, 0)), Err(refused(4, 0)));
    assert_eq!(within(FULL, (BLANK, 900)), Err(refused(4, 2)));
    let over = |bounds: &[(i32, i32)]| {
        Model::build_within(&[5, 8, 0], bounds, &[Row::over(2, 1, 0)]).map(|sheet| sheet.kept())
    };
    assert_eq!(over(&[(0, 9), (0, 9), FULL]), Ok(0));
    assert_eq!(over(&[(0, 9), (0, 9), (0, 9)]), Err(refused(4, 2)));
    assert_eq!(over(&[(0, 9), (0, 9)]), Err(refused(1, 0)));
    assert_eq!(over(&[(0, 9), (0, 9), FULL, (1, 0)]), Ok(0), "bounds beyond the variables");
}

#[test]
fn a_file_of_version_1_has_no_bounds() {
    let sheet = model_a_within((25200, 25200), (300, 900)).expect("a model");
    let file = sheet.write().expect("a file");
    assert_eq!(file, model_a().write().expect("a file"));
    let mut again = Model::read(&file).expect("a model");
    assert_eq!((again.bounds(2), again.keep(&[(2, 901)]).is_ok()), (Some(FULL), true));
    let mut bounds = [FULL; 6];
    bounds[2] = (300, 900);
    let mut within = Model::read_within(&file, &bounds).expect("a model");
    assert_eq!(within.keep(&[(2, 901)]).unwrap_err(), refused(17, 0));
    bounds[2] = (300, 599);
    assert_eq!(Model::read_within(&file, &bounds).unwrap_err(), refused(7, 2));
    assert_eq!(Model::read_within(&file, &bounds[..5]).unwrap_err(), refused(1, 0));
}

#[test]
fn a_file_of_version_2_has_its_bounds() {
    let sheet = model_a_within((25200, 25200), (300, 900)).expect("a model");
    let (plain, file) = (sheet.write().expect("a file"), sheet.write_bounded().expect("a file"));
    assert_eq!(file.len(), plain.len() + 8 * 6 + 4);
    let mut again = Model::read_bounded(&file).expect("a model");
    assert_eq!((again.stored(), again.bounds(0)), (sheet.stored(), Some((25200, 25200))));
    assert_eq!((again.bounds(2), again.bounds(5), again.bounds(6)), (Some((300, 900)), Some(FULL), None));
    assert_eq!(again.keep(&[(2, 901)]).unwrap_err(), refused(17, 0));
    again.keep(&[(2, 900)]).expect("a keep");
    let kept = Model::read_bounded(&again.write_bounded().expect("a file")).expect("a model");
    assert_eq!((kept.stored(), kept.bounds(2)), (again.stored(), Some((300, 900))));

    assert_eq!(to_version_1(&file), Err(refused(18, 0)));
    let up = to_version_2(&plain).expect("a file");
    assert_eq!(up, model_a().write_bounded().expect("a file"));
    let mut full = Model::read_bounded(&up).expect("a model");
    assert_eq!((full.bounds(2), full.keep(&[(2, 901)]).is_ok()), (Some(FULL), true));

    assert_eq!(Model::read(&file).unwrap_err(), refused(14, 0));
    assert_eq!(Model::read_bounded(&plain).unwrap_err(), refused(14, 0));
    assert_eq!(Model::read_bounded(&file[..file.len() - 1]).unwrap_err(), refused(14, 20));
    // The bounds of variables 2 and 5, which build judges.
    let with = |variable: usize, low: i32, high: i32| {
        let mut bytes = file.clone();
        bytes[plain.len() + 4 + 8 * variable..][..8].copy_from_slice(&[low.to_le_bytes(), high.to_le_bytes()].concat());
        Model::read_bounded(&bytes).map(|sheet| sheet.bounds(variable as u16))
    };
    assert_eq!(with(2, 600, 600), Ok(Some((600, 600))));
    assert_eq!(with(2, 601, 900), Err(refused(7, 2)));
    assert_eq!(with(2, 900, 300), Err(refused(4, 2)));
    assert_eq!(with(5, 0, 30), Err(refused(4, 5)));
}

#[test]
fn a_refused_keep_is_not_logged() {
    let mut sheet = model_a();
    sheet.keep(&[(0, 1), (3, 1)]).expect_err("a made variable");
    assert_eq!((sheet.logged(), sheet.take_back()), (0, Err(refused(15, 0))));
}

#[test]
fn a_kept_model_goes_to_a_file_and_back() {
    let mut sheet = model_a();
    sheet.keep(&[(1, 28801), (2, 300)]).expect("a keep");
    let file = sheet.write().expect("a file");
    let again = Model::read(&file).expect("a model");
    assert_eq!(again.stored(), sheet.stored());
    assert_eq!(again.write().expect("a file"), file);
    assert_eq!(Model::read(&file[..file.len() - 1]).unwrap_err(), refused(14, 20));
}

#[test]
fn refusals_change_nothing() {
    let mut sheet = model_a();
    let before = sheet.stored().to_vec();
    let many: Vec<(u16, i32)> = vec![(0, 1); 65];
    assert_eq!(sheet.trial(&many, NOTHING_ASKED, Route::InputToOutput).unwrap_err(), refused(1, 0));
    assert_eq!(sheet.trial(NOTHING_MOVED, &[0; 33], Route::InputToOutput).unwrap_err(), refused(1, 0));
    assert_eq!(sheet.trial(NOTHING_MOVED, &[5, 6], Route::MarkGuided).unwrap_err(), refused(13, 1));
    assert_eq!(sheet.keep(&many).unwrap_err(), refused(1, 0));
    assert_eq!(sheet.keep(&[(0, 1), (3, 1)]).unwrap_err(), refused(10, 1));
    assert_eq!(sheet.keep(&[(0, 1), (0, 1)]).unwrap_err(), refused(11, 1));
    assert_eq!(sheet.keep(&[(0, BLANK)]).unwrap_err(), refused(12, 0));
    assert_eq!(sheet.stored(), before);
    assert_eq!((sheet.kept(), sheet.evaluations()), (0, 3));
}

#[test]
fn models_that_are_too_large() {
    let row = |inputs: usize| Row { kind: Kind::Min, makes: 1, parameter: 0, entries: vec![(0, 1); inputs] };
    assert!(Model::build(&[1, 0], &[row(256)]).is_ok());
    assert_eq!(Model::build(&[1, 0], &[row(257)]).unwrap_err(), refused(3, 0));
    assert_eq!(Model::build(&[1, 0], &[row(70_000)]).unwrap_err(), refused(1, 0));
    assert_eq!(Model::build(&[], &[]).unwrap_err(), refused(1, 0));
    assert_eq!(Model::build(&[1; 4096], &[]).expect("a model").reasons(), [0; 4096]);
    assert_eq!(Model::build(&[1; 4097], &[]).unwrap_err(), refused(1, 0));
}

/// Two trips that start at a depot or at the other's end: indices 0 and 1, the depot's time 2, starts 3 and 5, ends 4 and 6.
fn two_trips(first: i32, second: i32) -> Result<Model, Refused> {
    let rows = [
        Row::linear(4, 600, &[(3, 1)]),
        Row::element(3, 0, &[2, 6]),
        Row::linear(6, 900, &[(5, 1)]),
        Row::element(5, 1, &[2, 4]),
    ];
    Model::build(&[first, second, 25200, 0, 0, 0, 0], &rows)
}

#[test]
fn trips_take_their_start_from_each_other() {
    let mut trips = two_trips(0, 0).expect("both start at the depot");
    assert_eq!(trips.stored()[3..], [25200, 25800, 25200, 26100]);
    assert_eq!(two_trips(1, 1).unwrap_err(), refused(20, 3));
    for route in [Route::InputToOutput, Route::OutputToInput, Route::MarkGuided] {
        assert_eq!(trips.trial(&[(0, 1)], &[4], route).expect("the first behind the second").results, [26700]);
        assert_eq!(trips.trial(&[(0, 1), (1, 1)], &[4], route).unwrap_err(), refused(20, 3));
    }
    assert_eq!(trips.keep(&[(0, 1)]), Ok(3));
    assert_eq!(trips.keep(&[(1, 1)]), Err(refused(20, 3)));
    assert_eq!(trips.stored()[3..], [26100, 26700, 25200, 26100]);
    assert_eq!(trips.keep(&[(0, 0), (1, 1)]), Ok(4));
    assert_eq!(trips.stored()[3..], [25200, 25800, 25800, 26700]);
    assert_eq!((trips.take_back(), trips.take_back()), (Ok(4), Ok(3)));
    assert_eq!(trips.stored()[3..], [25200, 25800, 25200, 26100]);
    let through_an_index = [Row::element(1, 2, &[0]), Row::linear(2, 0, &[(1, 1)])];
    assert_eq!(Model::build(&[5, 0, 0], &through_an_index).unwrap_err(), refused(6, 1));
}

#[test]
fn every_refusal_has_a_sentence() {
    for number in 1..=21 {
        let sentence = refused(number, 7).to_string();
        assert!(sentence.starts_with(&format!("refused {number} 7: ")), "{sentence}");
        assert!(!sentence.contains("no check"), "{sentence}");
    }
    for number in [0, 22] {
        assert!(refused(number, 0).to_string().contains("no check"));
    }
}

#[test]
fn a_damaged_file_is_saved() {
    let file = model_a().write().expect("a file");
    let whole = Salvage { file: file.clone(), rows: vec![], values: vec![] };
    assert_eq!(salvage(&file), Ok(whole.clone()));
    assert_eq!(salvage(&[&file[..], &[7; 5]].concat()), Ok(whole), "surplus bytes");

    let saved = salvage(&file[..file.len() - 1]).expect("a cut file");
    assert_eq!((&saved.rows[..], &saved.values[..]), (&[2][..], &[][..]));
    assert_eq!(Model::read(&saved.file).expect("a model").stored(), [25200, 28800, 600, 6, 28200, 0]);

    let saved = salvage(&file[..30]).expect("little more than a header");
    assert_eq!((&saved.rows[..], &saved.values[..]), (&[0, 1, 2][..], &[1, 2, 3, 4, 5][..]));
    assert_eq!(Model::read(&saved.file).expect("a model").stored(), [25200, 0, 0, 0, 0, 0]);

    assert_eq!(salvage(&file[..23]), Err(refused(14, 23)));
    assert_eq!(salvage(&[]), Err(refused(14, 0)));
}

#[test]
fn everything_is_listed_at_most() {
    let mut header = vec![0; 24];
    header[..8].copy_from_slice(&[1, 0, 0, 16, 0, 16, 0, 64]);
    let saved = salvage(&header).expect("4,096 variables and rows, and 16,384 entries");
    let all: Vec<u16> = (0..4096).collect();
    assert_eq!((saved.file.len(), &saved.rows, &saved.values), (24 + 4 * 4096, &all, &all));
}

#[test]
fn a_batch_in_figures() {
    let sheet = model_a();
    let moves = [vec![], vec![(1, 28801)], vec![(2, 0)], vec![(3, 1)], vec![(0, 1); 65], vec![(0, 1); 70_000]];
    let mut by_number = [0; 22];
    (by_number[0], by_number[1], by_number[10]) = (3, 2, 1);
    let figures = sheet.figures(&moves, 5).expect("a batch");
    let (least, greatest) = (Some(26), Some(30));
    assert_eq!(figures, Figures { by_number, blank: 1, least, greatest, sum: 56, evaluations: [6, 6, 4] });
    assert_eq!((figures.accepted(), figures.refused()), (3, 3));
    assert_eq!((sheet.value(5), sheet.evaluations()), (Some(26), 3), "nothing is kept, and the record stays");

    let none: [[(u16, i32); 0]; 0] = [];
    let figures = sheet.figures(&none, 65535).expect("no moves");
    let nothing = Figures { by_number: [0; 22], blank: 0, least: None, greatest: None, sum: 0, evaluations: [0; 3] };
    assert_eq!(figures, nothing);
    assert_eq!(sheet.figures(&vec![[(1, 28801)]; 1000], 5).map(|figures| figures.sum), Ok(30_000));
    assert_eq!(sheet.figures(&vec![[(1, 28801)]; 1001], 5), Err(refused(1, 0)));
}

#[test]
fn a_departure_board() {
    let window = |start, end, headway| Window { start, end, headway };
    let mut list = [7; 5];
    assert_eq!(departures(&[window(20, 30, 9), window(0, 20, 9)], &mut list), Ok(5));
    assert_eq!(list, [0, 9, 18, 20, 29]);
    assert_eq!(departures(&[], &mut list), Ok(0));
    for (windows, number, place) in [
        (vec![window(0, 0, 1); 65], 1, 0),
        (vec![window(0, 1, 1), window(5, 9, 0)], 2, 1),
        (vec![window(5, 9, 9), window(0, 6, 9)], 3, 0),
        (vec![window(0, 2001, 1)], 4, 0),
        (vec![window(0, 6, 1)], 5, 0),
    ] {
        let refused = departures(&windows, &mut list).expect_err("a refusal");
        assert_eq!(refused, BoardRefused { number, place });
        assert!(!refused.to_string().ends_with("has this number"), "{refused}");
        assert_eq!(list, [0, 9, 18, 20, 29], "the row stays");
    }
}

#[test]
fn the_inputs_of_a_row() {
    let sheet = model_a();
    assert_eq!((sheet.inputs(0), sheet.inputs(1), sheet.inputs(2)), (&[0, 1, 2][..], &[0, 1, 2][..], &[3][..]));
    assert_eq!((sheet.inputs(3), sheet.inputs(65535)), (&[][..], &[][..]));
}

/// Figures merged, on both sides of what fits.
#[test]
fn figures_that_fit_are_merged() {
    let sheet = Model::build(&[25200, 28800, 600, 0], &[Row::departures(3, 0, 1, 2)]).expect("a model");
    let one = sheet.figures(&[[(2, 720)], [(2, 0)]], 3).expect("figures");
    let none = sheet.figures(&[[(2, -1)]], 3).expect("figures");
    let both = one.merge(&none).expect("what fits");
    assert_eq!((both.accepted(), both.blank, both.least, both.greatest, both.sum), (3, 2, Some(5), Some(5), 5));
    assert_eq!(none.merge(&one), Some(both));
    assert_eq!(none.merge(&none).map(|figures| (figures.least, figures.greatest)), Some((None, None)));
    let half = Figures { sum: (1 << 62) - 1, blank: u32::MAX - 1, ..one };
    assert_eq!(half.merge(&none).map(|figures| (figures.sum, figures.blank)), Some((half.sum, u32::MAX)));
    assert_eq!(Figures { sum: 1 << 62, ..one }.merge(&none), None, "a sum");
    assert_eq!(Figures { blank: u32::MAX, ..one }.merge(&none), None, "blanks");
    assert_eq!(none.merge(&Figures { by_number: [u32::MAX; 22], ..one }), None, "moves");
}
