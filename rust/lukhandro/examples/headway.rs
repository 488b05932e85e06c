// What if the 7 o'clock service ran every twelve minutes? In `rust/`: `cargo run -p lukhandro --example headway`.
use lukhandro::{FULL, Model, Refused, Route, Row};

fn main() -> Result<(), Refused> {
    let rows = [Row::departures(3, 0, 1, 2), Row::last(4, 0, 1, 2)];
    // A headway is from one minute to two hours; every other number is allowed.
    let bounds = [FULL, FULL, (60, 7200), FULL, FULL];
    let mut sheet = Model::build_within(&[25200, 28800, 600, 0, 0], &bounds, &rows)?;
    let tried = sheet
        .trial(&[(2, 720)], &[3, 4], Route::MarkGuided)?
        .results
        .to_vec();
    println!(
        "{:?} departures, last at {:?}; every twelve minutes {tried:?}",
        sheet.value(3),
        sheet.value(4)
    );
    sheet.keep(&[(2, 720)])?;
    println!("kept: {:?} departures", sheet.value(3));
    sheet.take_back()?;
    println!("taken back: {:?} departures", sheet.value(3));
    let closed = sheet.trial(&[(1, 25200)], &[4], Route::MarkGuided)?;
    if let Some(reason) = closed.reason(0) {
        println!("closed at seven it has no last departure: {reason}");
    }
    match sheet.keep(&[(2, 72_000)]) {
        Err(refused) => println!("a slipped digit: {refused}"),
        Ok(_) => println!("a headway of twenty hours"),
    }
    Ok(())
}
