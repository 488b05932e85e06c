//! Models laid out by names.

use lukhandro::builder::{Builder, Var, count, departures, element, last, linear, max, min, over, search, shared};
use lukhandro::{FULL, Kind, Model, Reason, Route, Row, Variable};

#[test]
fn every_formula_by_its_name() {
    let mut day = Builder::new();
    let [five, again] = ["five", "again"].map(|name| day.add(search(name, 5)));
    let (eight, one) = (day.add(search("eight", 8)), day.add(search("one", 1).within(0..=2)));
    let made = [
        day.add(linear(1, [(2, five), (-1, again)]).named("linear")),
        day.add(min([five, again, eight])),
        day.add(max([five, again, eight])),
        day.add(element(one, [again, eight])),
        day.add(shared([five, again, eight])),
        day.add(count(5, [five, again, eight])),
        day.add(over(eight, five)),
        day.add(departures(five, eight, one)),
        day.add(last(five, eight, one)),
    ];
    let mut sheet = day.build().expect("a model");
    assert_eq!(made.map(|made| sheet.value(made).expect("a value")), [6, 5, 8, 8, 2, 2, 3, 3, 7]);
    assert_eq!((sheet.bounds(one), sheet.bounds(five)), (Some((0, 2)), Some(FULL)));
    assert_eq!((sheet.name(one), sheet.name(made[0]), sheet.name(made[1])), (Some("one"), Some("linear"), None));
    assert_eq!((sheet.named("one"), sheet.named("two")), (Some(one.variable()), None));
    let kinds: Vec<Kind> = sheet.rows().map(|row| row.kind).collect();
    assert_eq!(kinds, (1..=9).filter_map(Kind::of).collect::<Vec<_>>());
    assert_eq!(sheet.maker(made[8]), Some(8));

    // the same model, row by row
    let rows: Vec<Row> = sheet.rows().collect();
    let mut starts = vec![5, 5, 8, 1];
    starts.resize(13, 0);
    assert_eq!(Model::build(&starts, &rows).expect("a model").stored(), sheet.stored());

    let tried = sheet.trial(&[(one, 0)], &[made[7], made[3]], Route::MarkGuided).expect("a trial");
    assert_eq!((tried.value(0), tried.reason(0)), (None, Some(Reason::HeadwayNotPositive)));
    assert_eq!((tried.value(1), tried.reason(1), tried.value(2)), (Some(5), None, None));
    assert_eq!(sheet.reason(made[7]), None);
    let moves = [[(one, 1)], [(one, 2)], [(one, 0)]];
    let figures = sheet.figures(&moves, made[8]).expect("figures");
    assert_eq!((figures.accepted(), figures.blank, figures.greatest), (3, 1, Some(7)));
}

#[test]
fn what_is_laid_out_wrong_is_refused_by_build() {
    let mut many = Builder::new();
    let first = many.add(search("the first", 0));
    for number in 1..5000 {
        many.add(search(format!("variable {number}"), 0));
    }
    let refused = many.build().expect_err("too many variables");
    assert_eq!(refused.to_string(), "refused 1 0: there are 5000 variables, and 4096 is the most");

    let mut round = Builder::new();
    let [one, other] = ["one", "other"].map(|name| round.later(name));
    round.make(one, min([other]));
    round.make(other, min([one]));
    assert_eq!(round.build().expect_err("a circle").number, 6);

    let mut none = Builder::new();
    let start = none.add(search("start", 1));
    none.add(min([Var::from(first), Var::from(start)]));
    none.add(max::<Var>([]));
    let refused = none.build().expect_err("a formula of nothing");
    assert_eq!(refused.to_string(), "refused 3 1: row 1 is a MAX, which takes 1 to 256 inputs, and has 0");
    assert_eq!(
        Builder::new().build().expect_err("nothing").to_string(),
        "refused 1 0: the model has no variable: it has at least one"
    );
}
