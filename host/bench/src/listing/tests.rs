use super::*;

// c.nop; addi 10 0 -1; the zero half, which is illegal; the first byte of another word.
const CODE: [u8; 9] = [0x01, 0x00, 0x13, 0x05, 0xF0, 0xFF, 0x00, 0x00, 0x13];
const START: u64 = 0xFFFF_FFFE;

/// What is written of code that comes in pieces of so many bytes, and what is left.
fn listed(code: &[u8], pieces: usize, form: Form) -> (String, Option<Tail>) {
    let mut out = Vec::new();
    let mut lister = Lister::new(&mut out, form, START);
    for piece in code.chunks(pieces) {
        lister.take(piece).unwrap();
    }
    let tail = lister.finish().unwrap();
    (String::from_utf8(out).unwrap(), tail)
}

#[test]
fn each_word_has_its_address_digits_and_instruction() {
    for pieces in 1..=9 {
        let (plain, tail) = listed(&CODE, pieces, Form::Plain);
        assert_eq!(plain, "c.nop\naddi\t10\t0\t-1\n0000\n");
        let left = Tail {
            address: START + 8,
            bytes: vec![0x13],
        };
        assert_eq!(tail, Some(left.clone()));
        let said = "  100000006  13        data: the bytes end inside a word\n";
        assert_eq!(left.line(), said);
        let shown = "  fffffffe  0001      c.nop
  100000000  fff00513  addi 10 0 -1
  100000004  0000      0000
";
        assert_eq!(
            listed(&CODE[..8], pieces, Form::Shown),
            (shown.into(), None)
        );
    }
}

#[test]
fn words_as_json_are_one_list() {
    let (words, _) = listed(&CODE, 2, Form::Json);
    let words: serde_json::Value = serde_json::from_str(&format!("[{words}]")).unwrap();
    let word = |address: u64, word: u32, length: u32, said: &str| json!({ "address": address, "word": word, "length": length, "instruction": said });
    let expected = [
        word(START, 1, 2, "c.nop"),
        word(START + 2, 0xFFF0_0513, 4, "addi 10 0 -1"),
        word(START + 6, 0, 2, "0000"),
    ];
    assert_eq!(words, json!(expected));
}

/// Halves and long words by turns, more than a piece of them.
fn mixed() -> Vec<u8> {
    let mut words = crate::sequence::Sequence(7);
    let bytes = std::iter::repeat_with(|| words.word().to_le_bytes()).flatten();
    bytes.take(3 * PIECE + 1).collect()
}

// A piece ends inside a word about every other time.
#[test]
fn pieces_list_as_the_whole_does() {
    let code = mixed();
    let length = proved::list(&code).map_or_else(|cut| cut.place as usize, |_| code.len());
    let whole = proved::list(&code[..length]).unwrap();
    for pieces in [1_000, PIECE - 1, PIECE, PIECE + 2, 4 * PIECE] {
        let (plain, tail) = listed(&code, pieces, Form::Plain);
        assert!(plain == whole, "{pieces}");
        assert_eq!(tail.map_or(0, |tail| tail.bytes.len()), code.len() - length);
        let (shown, _) = listed(&code, pieces, Form::Shown);
        assert!(shown == String::from_utf8(super::shown(&whole, &code[..length], START)).unwrap());
    }
}

// The bytes of a word are what the lister needs for its line.
#[test]
fn a_line_tells_how_long_its_word_is() {
    for half in 0..=u16::MAX {
        let bytes = [half.to_le_bytes(), [0x5A, 0xA5]].concat();
        let length = proved::length(&bytes).unwrap();
        let line = proved::list(&bytes[..length]).unwrap();
        assert_eq!(length_of(line.trim_end().as_bytes()), length, "{line}");
    }
}

#[test]
fn numbers_have_all_their_digits() {
    for number in [0, 9, 10, 4_294_967_295, u64::MAX] {
        let (mut digits, mut hex) = (Vec::new(), Vec::new());
        decimal(&mut digits, number);
        hexadecimal(&mut hex, number);
        let expected = (number.to_string(), format!("{number:08x}"));
        assert_eq!(
            (digits, hex),
            (expected.0.into_bytes(), expected.1.into_bytes())
        );
    }
}
