//! Both engines: the same bytes in every report, and on every page and shelf.

mod common;

use common::{bench_in, directory, examples};
use std::path::Path;

const BOARDS: [&str; 2] = ["small", "large"];
const IMAGES: [&str; 2] = ["image", "image_short"];
const ENGINES: [&str; 2] = ["plain", "quick"];
/// Ways to run an example, with what each of them says. The breakpoints are at the function that is called most, with short
/// words and with long ones.
const WAYS: [(&[&str], &str); 6] = [
    (&["--save", "%/state", "--report", "%/page.html"], "retired"),
    (
        &["--json", "--through-traps", "--steps", "100000"],
        "retired",
    ),
    (
        &["--through-traps", "--compare", "300", "--steps", "3001"],
        "retired",
    ),
    (
        &[
            "--sweep",
            "257",
            "--watch",
            "0x20000000",
            "0x10000",
            "--last",
            "40",
        ],
        "The last steps",
    ),
    (
        &["--break", "0x2000010a", "--break", "0x2000010c"],
        "Stopped before the step at 2000010",
    ),
    (
        &["--cover", "--steps", "0x3ff"],
        "Executed, in bytes of the image:",
    ),
];

/// What a command says and writes, by each engine: its text, and the files that it leaves in a folder of their own. %
/// in an argument stands for that folder.
fn by_both(name: &str, arguments: &[&str]) -> [Vec<String>; 2] {
    ENGINES.map(|engine| {
        let folder = directory(&format!("{name}_{engine}"));
        let place = |word: &&str| word.replace('%', &folder.display().to_string());
        let words: Vec<String> = arguments.iter().map(place).collect();
        let words: Vec<&str> = words.iter().map(String::as_str).collect();
        let answer = bench_in(&examples(), &[&words[..], &["--engine", engine]].concat());
        let mut said = vec![answer.text().replace(&folder.display().to_string(), "%")];
        said.extend(files(&folder));
        said
    })
}

/// The files of a folder, by name.
fn files(folder: &Path) -> Vec<String> {
    let entries = std::fs::read_dir(folder).expect("a folder");
    let mut paths: Vec<_> = entries
        .map(|entry| entry.expect("an entry").path())
        .collect();
    paths.sort();
    let read = |path| std::fs::read_to_string(path).expect("a text file");
    paths.into_iter().map(read).collect()
}

#[test]
fn runs_of_all_examples_are_the_same() {
    for board in BOARDS {
        for image in IMAGES {
            let (map, own) = (
                format!("interlock_{board}.map"),
                format!("interlock_{board}.hex"),
            );
            let image = format!("interlock_{image}.hex");
            let run = ["run", "--map", &map, &own, &image];
            for (way, (further, said)) in WAYS.iter().enumerate() {
                let name = format!("engines_{board}_{image}_{way}");
                let [plain, quick] = by_both(&name, &[&run[..], further].concat());
                assert_eq!(plain, quick, "{name}");
                assert!(plain[0].contains(said), "{name}: {}", plain[0]);
            }
        }
    }
}

#[test]
fn a_shelf_and_its_pages_are_the_same() {
    let folder = directory("engines_shelf_images");
    for image in ["interlock_image.img", "interlock_image.hex"] {
        std::fs::copy(examples().join(image), folder.join(image)).expect("a copy");
    }
    let images = folder.display().to_string();
    let with = [
        "--board",
        "interlock_small.map",
        "--with",
        "interlock_small.hex",
    ];
    let asked = [&["shelf", &images][..], &with, &["--report", "%"]].concat();
    let [plain, quick] = by_both("engines_shelf", &asked);
    assert!(plain[0].contains("trapped"), "{}", plain[0]);
    assert_eq!(plain, quick);
}

#[test]
fn there_is_no_third_engine() {
    let run = ["run", "--engine", "slow", "interlock_small.hex"];
    let answer = bench_in(&examples(), &run);
    assert_eq!(answer.status, 3);
    assert!(answer.err.contains("plain, quick"), "{}", answer.err);
}
