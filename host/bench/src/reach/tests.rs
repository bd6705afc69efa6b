//! Rows and what is asked of them, worked out by hand.

use super::*;
use crate::sheet;
use lent::{Capability, EXECUTABLE_ROOT, MEMORY_ROOT, MTDC, PCC};

const START: u32 = 0x2000_0000;

/// Two regions with a hole between them; memory has a hole below and one above.
const SHEET: &str = "region\thigh\t20000080\t00000040\trw\nregion\tlow\t20000020\t00000020\trx\n";

fn sheet() -> Sheet {
    sheet::of(SHEET.as_bytes()).expect("a good sheet")
}

fn state() -> State {
    State::new(START, vec![0; 256])
}

/// A memory capability of 8 bytes.
fn object(address: u32) -> Capability {
    let base = address & 0x1FF;
    Capability::tagged(address, 0x7E00_0000 | (base + 8) << 9 | base)
}

/// The same with the right to store alone.
fn store_only(address: u32) -> Capability {
    let whole = object(address);
    Capability::tagged(address, whole.metadata & !(0x3F << 25) | 0b110000 << 25)
}

/// The row of a region.
fn row<'a>(rows: &'a [Row], name: &str) -> &'a Row {
    let mut rows = rows.iter();
    rows.find(|row| row.name() == name).expect("a row")
}

fn names(held: &Held) -> Vec<&str> {
    held.first.iter().map(|holder| &holder.name[..]).collect()
}

#[test]
fn rows_are_regions_by_address_and_the_holes_around_them() {
    let rows = rows(&state(), &sheet()).expect("rows");
    let places: Vec<(&str, u32, u32)> = rows
        .iter()
        .map(|row| (row.name(), row.start - START, row.length))
        .collect();
    let wanted = [
        ("hole", 0, 0x20),
        ("low", 0x20, 0x20),
        ("hole", 0x40, 0x40),
        ("high", 0x80, 0x40),
        ("hole", 0xC0, 0x40),
    ];
    assert_eq!(places, wanted);
    assert!(rows.iter().flat_map(|row| &row.held).all(Held::is_never));
}

#[test]
fn each_deed_has_its_own_right_and_holders_come_in_the_order_of_their_places() {
    let mut state = state();
    state.set(PCC, Capability::tagged(START, EXECUTABLE_ROOT));
    state.set(MTDC, Capability::tagged(START, MEMORY_ROOT));
    for granule in 0..4 {
        state.write_capability(START + 8 * granule, object(START + 0x80));
    }
    let rows = rows(&state, &sheet()).expect("rows");
    let [low, high] = [&rows[1], &rows[3]];
    assert_eq!(names(&low.held[0]), ["MTDC"]);
    assert_eq!(names(&low.held[1]), ["PCC", "MTDC"]);
    assert_eq!(names(&low.held[2]), ["PCC"]);
    let written = &high.held[0];
    assert_eq!(names(written), ["MTDC", "20000000", "20000008"]);
    assert_eq!((written.all, written.more()), (5, 2));
    assert_eq!(names(&high.held[2]), ["PCC"]);
    let account = Account {
        at: START,
        steps: None,
        rows: &rows,
        nevers: &[],
    };
    let holders = account.holders();
    let places: Vec<u32> = holders.iter().map(|holder| holder.place).collect();
    assert_eq!(places, [16, 18, 21, 22]);
    assert_eq!(account.may(0), ["holes", "low", "high"]);
}

#[test]
fn an_unsound_one_counts_everywhere_but_where_it_stands_and_is_marked() {
    let mut state = state();
    state.write_capability(START + 248, Capability::tagged(0x0500_0000, 0x7E3C_0805));
    let rows = rows(&state, &sheet()).expect("rows");
    let (last, others) = rows.split_last().expect("rows");
    assert!(last.is_isolated() && last.end() == state.end());
    for held in others.iter().flat_map(|row| &row.held) {
        assert_eq!(names(held), ["200000f8"]);
        assert!(held.first[0].unsound);
    }
    state.write_capability(START + 248, object(START + 0x20));
    let rows = super::rows(&state, &sheet()).expect("rows");
    assert!(!rows[1].held[0].first[0].unsound && rows[3].held[0].is_never());
}

#[test]
fn what_is_never_to_be_is_a_region_and_letters() {
    let never = Never::read("interlock:wx").expect("a good form");
    assert_eq!(
        (never.region.as_str(), never.text()),
        ("interlock", "interlock:wx".into())
    );
    let again = Never::read("holes:wxwxx").expect("a good form");
    assert_eq!(again.text(), "holes:wx");
    for text in [
        "interlock",
        "interlock:",
        ":w",
        "interlock:q",
        "interlock:w,x",
        "",
    ] {
        assert!(Never::read(text).is_err(), "{text}");
    }
    assert!(Never::read("high:r").expect("good").check(&sheet()).is_ok());
    assert!(Never::read("holes:r")
        .expect("good")
        .check(&sheet())
        .is_ok());
    let unknown = Never::read("nowhere:r").expect("good").check(&sheet());
    assert_eq!(
        unknown,
        Err("--never nowhere:r: the map sheet has no region of that name".into())
    );
}

#[test]
fn each_deed_is_judged_for_itself() {
    let mut state = state();
    state.set(5, object(START + 0x38));
    let rows = rows(&state, &sheet()).expect("rows");
    let holds = |text: &str| Never::read(text).expect("a good form").holds(&rows);
    assert!(!holds("low:w") && !holds("low:xr") && holds("low:x"));
    assert!(holds("high:rwx") && holds("holes:rwx"));
    state.set(6, object(START + 0x3C));
    let rows = super::rows(&state, &sheet()).expect("rows");
    assert!(!Never::read("holes:w").expect("good").holds(&rows));
}

#[test]
fn what_stands_inside_counts_only_where_something_outside_may_read() {
    let mut state = state();
    state.write_capability(START + 0x20, Capability::tagged(START + 0x28, MEMORY_ROOT));
    let rows = super::rows(&state, &sheet()).expect("rows");
    let low = row(&rows, "low");
    assert!(low.held.iter().all(Held::is_never) && low.is_isolated());
    assert_eq!(names(&row(&rows, "high").held[0]), ["20000020"]);
    state.set(6, store_only(START + 0x38));
    let rows = super::rows(&state, &sheet()).expect("rows");
    let low = row(&rows, "low");
    assert_eq!(names(&low.held[0]), ["c6"]);
    assert!(low.held[1].is_never() && !low.is_isolated());
    assert!(Never::read("low:r").expect("good").holds(&rows));
    assert!(!Never::read("low:rw").expect("good").holds(&rows));
    state.set(5, object(START + 0x38));
    let rows = super::rows(&state, &sheet()).expect("rows");
    let low = row(&rows, "low");
    assert_eq!(names(&low.held[0]), ["c5", "c6", "20000020"]);
    assert_eq!(names(&low.held[1]), ["c5", "20000020"]);
}

#[test]
fn what_is_read_is_told_of_whole_granules() {
    let sheet = "region\tpart\t20000024\t00000009\tr\nregion\trest\t20000080\t00000040\trw\n";
    let sheet = sheet::of(sheet.as_bytes()).expect("a good sheet");
    let mut state = state();
    state.set(7, object(START + 0x1C));
    let rows = super::rows(&state, &sheet).expect("rows");
    let part = row(&rows, "part");
    assert_eq!(part.granules, (START + 0x20, 0x10));
    assert_eq!(
        part.rounded(),
        Some((START + 0x20, u64::from(START) + 0x30))
    );
    assert!(part.held[0].is_never());
    assert_eq!(names(&part.held[1]), ["c7"]);
    assert_eq!(row(&rows, "rest").rounded(), None);
}

#[test]
fn of_nearly_the_whole_address_space_memory_is_what_stands_there() {
    let sheet = sheet::of(b"region\tall\t00000001\tffffffff\trw\n").expect("a good sheet");
    let mut state = state();
    state.write_capability(START + 8, object(START));
    let rows = super::rows(&state, &sheet).expect("rows");
    let all = row(&rows, "all");
    assert_eq!(all.granules, (START, 256));
    assert!(all.is_isolated());
    state.set(9, object(START + 0xF8));
    let rows = super::rows(&state, &sheet).expect("rows");
    assert_eq!(names(&row(&rows, "all").held[1]), ["c9", "20000008"]);
}
