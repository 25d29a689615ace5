//! Figures as the tables show them.

/// The nearest whole number, with a comma before every three digits.
pub fn grouped(number: f64) -> String {
    let digits = format!("{number:.0}");
    let mut text = String::new();
    for (at, digit) in digits.chars().enumerate() {
        if at > 0 && (digits.len() - at).is_multiple_of(3) {
            text.push(',');
        }
        text.push(digit);
    }
    text
}

/// With two digits behind the point, or three of a number below a tenth.
pub fn ratio(number: f64) -> String {
    let digits = if number < 0.1 { 3 } else { 2 };
    format!("{number:.digits$}")
}
