// The 7 o'clock service every ten minutes, and what if it ran every twelve? In `rust/`: `cargo run -p lukhandro --example sheet`.
use lukhandro::builder::{Builder, departures, linear, search};
use lukhandro::{Refused, Route};

fn main() -> Result<(), Refused> {
    let mut day = Builder::new();
    let (start, end) = (
        day.add(search("start", 25200)),
        day.add(search("end", 28800)),
    );
    let headway = day.add(search("headway", 600).within(60..=7200));
    let trips = day.add(departures(start, end, headway));
    let crews = day.add(linear(2, [(4, trips)]));
    let mut sheet = day.build()?;
    println!(
        "{:?} trips, {:?} crews",
        sheet.value(trips),
        sheet.value(crews)
    );
    let tried = sheet.trial(&[(headway, 720)], &[trips, crews], Route::MarkGuided)?;
    println!(
        "every twelve minutes {:?} and {:?}",
        tried.value(0),
        tried.value(1)
    );
    println!(
        "a slipped digit: {}",
        sheet.keep(&[(headway, 72_000)]).unwrap_err()
    );
    Ok(())
}
