//! What is shown of a row: its name, and a blank before each number.

use second::BLANK;

/// A number that is shown.
pub(super) trait Shown: Copy {
    /// Its text.
    fn text(self) -> String;
}

impl Shown for u8 {
    fn text(self) -> String {
        self.to_string()
    }
}

impl Shown for u16 {
    fn text(self) -> String {
        self.to_string()
    }
}

impl Shown for u32 {
    fn text(self) -> String {
        self.to_string()
    }
}

/// A blank is `-`, and a value below 0 stands without its sign in brackets.
impl Shown for i32 {
    fn text(self) -> String {
        if self == BLANK { "-".to_string() } else { signed(self.into()) }
    }
}

/// A number; one below 0 stands without its sign in brackets.
pub(super) fn signed(number: i64) -> String {
    if number < 0 { format!("({})", number.unsigned_abs()) } else { number.to_string() }
}

/// A row under its name.
pub(super) fn row(name: &str, row: &[impl Shown]) -> String {
    first(name, row, row.len())
}

/// The first so many numbers of a row, or all that there are, under its name.
pub(super) fn first(name: &str, row: &[impl Shown], count: usize) -> String {
    let numbers = row.iter().take(count).map(|number| format!(" {}", number.text()));
    format!("; {name}{}", numbers.collect::<String>())
}
