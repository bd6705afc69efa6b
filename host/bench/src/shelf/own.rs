//! Which pages are a shelf's own, so that it writes over no others. They are known by what every page of the bench begins
//! with, and the page of all by the head of its table.

/// The pages' first lines, before anything is put into them.
const HEAD: &str = include_str!("../page/head.html");
/// Where these lines end.
const TITLE: &str = "<title>";
/// The head of the table, as far as every shelf has it.
const TABLE: &str = "<thead><tr><th>Image</th><th>Label</th><th>Run</th>";

/// Whether a file is a page of the bench.
pub fn is_page(bytes: &[u8]) -> bool {
    let head = HEAD.split(TITLE).next().unwrap_or(HEAD);
    bytes.starts_with(head.as_bytes())
}

/// Whether it is the page of all images.
pub fn is_index(bytes: &[u8]) -> bool {
    is_page(bytes) && String::from_utf8_lossy(bytes).contains(TABLE)
}

#[cfg(test)]
mod tests {
    use super::*;
    use crate::page::filled;
    use serde_json::json;

    #[test]
    fn a_page_of_the_bench_is_told_from_others_and_from_the_page_of_all() {
        let value =
            json!({ "title": "a", "kind": "quiet", "head": "", "summary": "", "judged": null });
        let index = filled("shelf_head.html", &value).unwrap();
        let page = filled("head.html", &value).unwrap();
        assert!(is_page(index.as_bytes()) && is_index(index.as_bytes()));
        assert!(is_page(page.as_bytes()) && !is_index(page.as_bytes()));
        let other = format!("<!DOCTYPE html>\n<html lang=\"en\">\n<head>{TITLE}a</title>{TABLE}");
        for bytes in [b"", &b"<!DOCTYPE html>\n"[..], other.as_bytes()] {
            assert!(!is_page(bytes) && !is_index(bytes));
        }
    }
}
