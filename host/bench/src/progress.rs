//! A bar on standard error for what takes long.

use crate::colour;
use indicatif::{ProgressBar, ProgressStyle};
use std::env;

/// What is drawn of a bar where a terminal has these letters alone: done, its end, to do.
const PLAIN: &str = "#>-";

/// A bar for so many of something. It draws nothing where standard error is no terminal that obeys orders.
pub fn bar(all: u64, what: &str) -> ProgressBar {
    if !colour::obeys() {
        return ProgressBar::hidden();
    }
    let form = "{elapsed_precise} {wide_bar} {human_pos} of {human_len} ";
    let style = ProgressStyle::with_template(&format!("{form}{what}, {{eta}} left"));
    let style = style.unwrap_or_else(|_| ProgressStyle::default_bar());
    let style = match has_letters(|name| env::var(name).ok()) {
        true => style,
        false => style.progress_chars(PLAIN),
    };
    ProgressBar::new(all).with_style(style)
}

/// Whether the locale has letters that a byte has no room for: by the first of its variables that is set.
fn has_letters(variable: impl Fn(&str) -> Option<String>) -> bool {
    let set = |name: &&str| variable(name).filter(|value| !value.is_empty());
    let locale = ["LC_ALL", "LC_CTYPE", "LANG"].iter().find_map(set);
    let locale = locale.unwrap_or_default().to_lowercase();
    locale.contains("utf-8") || locale.contains("utf8")
}

#[cfg(test)]
mod tests {
    use super::*;

    #[test]
    fn the_first_variable_that_is_set_decides() {
        let with = |set: &[(&str, &str)]| {
            has_letters(|name| {
                let found = set.iter().find(|(known, _)| *known == name);
                found.map(|(_, value)| value.to_string())
            })
        };
        assert!(with(&[("LANG", "en_GB.UTF-8")]) && with(&[("LC_ALL", "C.utf8")]));
        assert!(with(&[("LC_ALL", ""), ("LANG", "C.UTF-8")]));
        assert!(!with(&[]) && !with(&[("LC_ALL", "C"), ("LANG", "en_GB.UTF-8")]));
        assert!(!with(&[("LC_CTYPE", "POSIX"), ("LANG", "en_GB.UTF-8")]));
    }
}
