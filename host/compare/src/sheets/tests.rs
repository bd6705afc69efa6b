//! The comparison agrees with itself, its sheets are what they are said to be, and wrong programs are
//! found.

use super::*;

#[test]
fn the_second_program_agrees_with_itself() {
    assert!(compare(SECOND, 1, 3_000).unwrap().complete());
    assert!(compare_damaged(SECOND, 1, 2).unwrap() > 0);
}

#[test]
fn good_sheets_are_good_and_reach_every_edge() {
    let (mut full, mut touching, mut at_the_end) = (0, 0, 0);
    for case in 0..500 {
        let regions = good(&mut Random::new(1, case));
        assert_eq!(sheet::regions(&text(&regions)), Ok(regions.clone()));
        full += u64::from(regions.len() == MOST_REGIONS as usize);
        at_the_end += u64::from(regions.iter().any(|region| region.end() == 1 << 32));
        let starts = |end| regions.iter().any(|other| u64::from(other.start) == end);
        touching += u64::from(regions.iter().any(|region| starts(region.end())));
    }
    assert!(full > 0 && touching > 0 && at_the_end > 0);
}

#[test]
fn every_damage_is_every_byte_changed_removed_and_inserted() {
    let texts: Vec<Vec<u8>> = Damage::every(b"ab", 2)
        .map(|damage| damage.of(b"ab"))
        .collect();
    assert_eq!(texts.len(), 2 * 256 + 2 + 3 * 256);
    for text in [&b"\0b"[..], b"a\xff", b"a", b"b", b"ab\n", b"\tab", b"axb"] {
        assert!(texts.iter().any(|damaged| damaged == text), "{text:?}");
    }
}

#[test]
fn a_byte_written_past_the_answer_is_found() {
    let wrong = Sheets {
        write: |records, out| {
            let answer = sheet::write(records, out);
            if let Some(place) = out.get_mut(parts(answer).1 as usize) {
                *place = 0;
            }
            answer
        },
        ..SECOND
    };
    assert!(compare(wrong, 1, 1_000).is_err());
}

#[test]
fn a_word_written_in_a_refusal_is_found() {
    let wrong = Sheets {
        read: |text, records| {
            let answer = sheet::read(text, records);
            if let (10.., Some(first)) = (parts(answer).0, records.first_mut()) {
                *first = 0;
            }
            answer
        },
        ..SECOND
    };
    assert!(compare(wrong, 1, 1_000).is_err());
}

#[test]
fn a_comparison_that_needs_more_room_than_its_answer_is_found() {
    let wrong = Sheets {
        compare: |first, second, out| {
            let room = out.len().saturating_sub(1);
            sheet::compare(first, second, &mut out[..room])
        },
        ..SECOND
    };
    assert!(compare(wrong, 1, 1_000).is_err());
}
