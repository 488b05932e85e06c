//! The session in README.md is what happens: it stands here as it stands there, and is run.

use lukhandro::Refused;

/// What README.md shows, between its fences.
const README: &str = include_str!("../../../README.md");

/// This file, in which the same lines stand between two marks.
const HERE: &str = include_str!("readme.rs");

#[test]
fn the_session_runs() -> Result<(), Refused> {
    // [session
    use lukhandro::Route;
    use lukhandro::builder::{Builder, departures, last, linear, search};

    // A window from 7:00 to 8:00, a trip every ten minutes: the departures, the last of them, four crews each and two more.
    let mut day = Builder::new();
    let (start, end) = (day.add(search("start", 25200)), day.add(search("end", 28800)));
    let headway = day.add(search("headway", 600).within(60..=7200));
    let trips = day.add(departures(start, end, headway));
    let final_trip = day.add(last(start, end, headway));
    let crews = day.add(linear(2, [(4, trips)]));
    let mut sheet = day.build()?;
    assert_eq!((sheet.value(final_trip), sheet.value(crews)), (Some(28200), Some(26)));

    let tried = sheet.trial(&[(headway, 720)], &[crews], Route::InputToOutput)?; // every twelve minutes: how many crews?
    assert_eq!(tried.value(0), Some(22)); // the sheet itself still says 26

    sheet.keep(&[(headway, 720)])?; // now it says 22
    sheet.take_back()?; // and 26 again
    // session]
    assert_eq!(sheet.value(crews), Some(26));
    let refused = sheet.keep(&[(headway, 72_000)]).expect_err("a slipped digit");
    assert!(README.contains(&refused.to_string()), "{refused}");
    Ok(())
}

#[test]
fn the_session_is_the_one_shown() {
    let shown = between(README, "```rust\n", "```");
    let run = between(HERE, "// [session\n", "// session]");
    // blanks are laid out by each page's own rules
    let lines = |text: &str| text.split_whitespace().map(str::to_owned).collect::<Vec<_>>();
    assert_eq!(lines(shown), lines(run));
}

/// What stands between two marks.
fn between<'a>(text: &'a str, from: &str, to: &str) -> &'a str {
    let start = text.find(from).expect("the first mark") + from.len();
    let end = text[start..].find(to).expect("the second mark");
    &text[start..start + end]
}
