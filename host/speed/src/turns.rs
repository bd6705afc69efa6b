//! Granules a second of the proved library and of the second program, tried by turns.

/// What stands above the rows.
pub const HEAD: &str = "memory      proved  second  ratio   (millions of granules a second)";

/// Prints a row: the best of so many tries of each. `rate` measures the proved library where it is told so, else the
/// second program.
pub fn row(kind: &str, tries: u32, mut rate: impl FnMut(bool) -> f64) {
    let (mut proved, mut second) = (0f64, 0f64);
    for _ in 0..tries {
        proved = proved.max(rate(true));
        second = second.max(rate(false));
    }
    let ratio = proved / second;
    println!("{kind:<10} {proved:>7.1} {second:>7.1} {ratio:>6.2}");
}
