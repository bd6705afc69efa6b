//! Makes the wrong machines: a copy of the second program's source in which each edit of
//! mutants.txt stands behind a switch of its own. The second program itself is not changed.

use std::collections::BTreeMap;
use std::error::Error;
use std::fmt::Write;
use std::path::{Path, PathBuf};
use std::{env, fs};

const SOURCES: [&str; 12] = [
    "calls",
    "capability",
    "compressed",
    "decode",
    "encoding",
    "fit",
    "listing",
    "machine",
    "reach",
    "sheet",
    "sweep",
    "text",
];

/// One paragraph of mutants.txt.
#[derive(Default)]
struct Mutant {
    name: String,
    by: String,
    /// What does not see it, and why.
    not: String,
    file: String,
    /// How the function begins.
    function: String,
    old: String,
    new: String,
}

fn main() -> Result<(), Box<dyn Error>> {
    println!("cargo::rerun-if-changed=mutants.txt");
    println!("cargo::rerun-if-changed=engine.rs");
    println!("cargo::rerun-if-changed=../../second/src");
    let out = PathBuf::from(env::var("OUT_DIR")?);
    let mutants = read(&fs::read_to_string("mutants.txt")?)?;
    let mut sources = BTreeMap::new();
    for name in SOURCES {
        let text = fs::read_to_string(format!("../../second/src/{name}.rs"))?;
        // The copy is compiled without the second program's own tests.
        sources.insert(name, text.replace("#[cfg(test)]\nmod tests;\n", ""));
    }
    // The engine needs what the machine keeps to itself.
    let machine = sources.get_mut("machine").ok_or("no machine")?;
    machine.push_str(&fs::read_to_string("engine.rs")?);
    for (index, mutant) in mutants.iter().enumerate() {
        let file = mutant.file.as_str();
        let source = sources.get_mut(file).ok_or(format!("no source {file}"))?;
        *source = edited(source, mutant, index + 1)?;
    }
    write_modules(&out, &sources)?;
    fs::write(out.join("list.rs"), list(&mutants)?)?;
    Ok(())
}

/// The paragraphs of mutants.txt, a field a line; `#` starts a line that is none.
fn read(text: &str) -> Result<Vec<Mutant>, String> {
    let mut mutants: Vec<Mutant> = Vec::new();
    for line in text.lines().filter(|line| !line.starts_with('#')) {
        let Some((field, value)) = line.split_once(' ') else {
            continue;
        };
        let value = value.trim();
        if field == "mutant" {
            mutants.push(Mutant::default());
        }
        let mutant = mutants.last_mut().ok_or("a field before any mutant")?;
        match field {
            "mutant" => mutant.name = value.to_string(),
            "by" => mutant.by = value.to_string(),
            "not" => mutant.not = value.to_string(),
            "in" => {
                let (file, function) = value.split_once(' ').ok_or("no function")?;
                mutant.file = file.to_string();
                mutant.function = function.trim().to_string();
            }
            "old" => mutant.old = value.to_string(),
            "new" => mutant.new = value.to_string(),
            _ => return Err(format!("no field of a mutant: {line}")),
        }
    }
    Ok(mutants)
}

/// A source with one edit, in which $on is the switch. The old text stands in its function once.
fn edited(source: &str, mutant: &Mutant, number: usize) -> Result<String, String> {
    let fault = |text: &str| format!("mutant {}: {text}", mutant.name);
    let start = source.find(&mutant.function);
    let start = start.ok_or(fault("no such function"))?;
    let (before, rest) = source.split_at(start);
    // A method is indented, and so is the brace that ends it.
    let line = before.rsplit('\n').next().unwrap_or("");
    let end = if line.starts_with(' ') {
        "\n    }\n"
    } else {
        "\n}\n"
    };
    let length = rest.find(end).ok_or(fault("a function without an end"))?;
    let (function, after) = rest.split_at(length);
    if function.matches(&mutant.old).count() != 1 {
        return Err(fault("the old text does not stand there once"));
    }
    let new = mutant.new.replace("$on", &format!("crate::on({number})"));
    let function = function.replace(&mutant.old, &new);
    Ok([before, &function, after].concat())
}

/// Writes the sources, and a file that names each of them a module.
fn write_modules(out: &Path, sources: &BTreeMap<&str, String>) -> Result<(), Box<dyn Error>> {
    let mut modules = String::new();
    for (name, text) in sources {
        let path = out.join(format!("{name}.rs"));
        fs::write(&path, text)?;
        writeln!(modules, "#[path = {path:?}]\npub mod {name};")?;
    }
    fs::write(out.join("modules.rs"), modules)?;
    Ok(())
}

/// The names, the comparisons that must tell each apart, and what does not see it.
fn list(mutants: &[Mutant]) -> Result<String, std::fmt::Error> {
    let mut text = String::from("&[\n");
    for Mutant { name, by, not, .. } in mutants {
        writeln!(
            text,
            "    Mutant {{ name: {name:?}, by: {by:?}, not: {not:?} }},"
        )?;
    }
    text.push_str("]\n");
    Ok(text)
}
