//! Document 01, "Answers", and document 02, 13: each refusal, the lowest number first, nothing changed.

use super::bench::*;
use crate::assemble as asm;
use crate::capability::{bounds, Capability, SPACE};
use crate::machine;
use crate::sample::Sample;
use lent::{Board, Window};

/// The answer must be a bare refusal and the state as before.
fn refused(mut bench: Bench, steps: u32, number: u64) {
    let before = bench.clone();
    assert_eq!(bench.run(steps), number << 48);
    assert_eq!(bench, before);
    if steps == 1 {
        assert_eq!(bench.step(), number << 48);
        assert_eq!(bench, before);
    }
}

fn with(change: impl Fn(&mut Bench)) -> Bench {
    let mut bench = Bench::new();
    change(&mut bench);
    bench
}

// 1: a register file of another length.
#[test]
fn refusal_1() {
    for words in [0, 1, 66, 71, 73, 200] {
        refused(with(|b| b.regs.resize(words, 0)), 1, 1);
    }
}

// 2: memory outside its limits: 64 to 1,048,576 bytes (document 02, 5) in steps of 64, from a
// multiple of 8 on, ending at 2^32 at the most.
#[test]
fn refusal_2() {
    for size in [0, 32, 63, 65, 96, 255, 1_048_640] {
        refused(with(|b| b.mem.resize(size, 0)), 1, 2);
    }
    for start in [1, 4, START + 4, 0xFFFF_FFF8, 0xFFFF_FF08] {
        refused(with(|b| b.start = start), 1, 2);
    }
    let mut last = with(|b| b.start = 0xFFFF_FF00);
    assert_eq!(last.run(0), 0);
    let mut largest = with(|b| {
        b.mem.resize(1_048_576, 0);
        b.tags.resize(16_384, 0);
    });
    assert_eq!(largest.run(0), 0);
    largest.window = Window::whole(1_048_576);
    largest.revoked.resize(16_384, 0);
    assert_eq!(largest.run(0), 0);
}

/// Another window, with as many bytes of bits as it asks for.
fn windowed(start: u32, size: u32) -> Bench {
    with(|b| {
        b.window = Window { start, size };
        b.revoked.resize(size as usize / 64, 0);
    })
}

// Document 02, 5: a window's start and size are multiples of 64, and it lies in memory, which has
// 256 bytes here. None of it need be there, and its end does not wrap.
#[test]
fn refusal_2_for_a_window() {
    for (start, size) in [
        (0, 0),
        (64, 0),
        (256, 0),
        (0, 64),
        (64, 128),
        (192, 64),
        (0, 256),
    ] {
        let mut good = windowed(start, size);
        assert_eq!(good.run(0), 0, "{start} {size}");
    }
    for (start, size) in [
        (32, 64),
        (8, 0),
        (255, 0),
        (0, 32),
        (0, 65),
        (64, 256),
        (256, 64),
        (320, 0),
        (0, 320),
        (0xFFFF_FFC0, 64),
        (0xFFFF_FFC0, 0),
        (64, 0xFFFF_FFC0),
    ] {
        // No bits: the number 2 comes before any length of them.
        let mut bad = windowed(0, 0);
        bad.window = Window { start, size };
        refused(bad, 1, 2);
    }
}

// Document 02, 5: the revocation bits are tested against the window, the tags against memory.
#[test]
fn refusal_3_for_a_window() {
    for (start, size, bytes) in [
        (64, 128, 4),
        (64, 128, 1),
        (0, 0, 1),
        (256, 0, 4),
        (0, 256, 0),
    ] {
        refused(
            with(|b| {
                b.window = Window { start, size };
                b.revoked.resize(bytes, 0);
            }),
            1,
            3,
        );
    }
    let mut short = windowed(64, 128);
    short.tags.resize(2, 0);
    refused(short, 1, 3);
}

// 3: tags or revocation bits of another length.
#[test]
fn refusal_3() {
    for size in [0, 3, 5] {
        refused(with(|b| b.tags.resize(size, 0)), 1, 3);
        refused(with(|b| b.revoked.resize(size, 0)), 1, 3);
    }
}

// 4: a tag word above 1, or a c0 that is not all zero.
#[test]
fn refusal_4() {
    for place in 0..21 {
        refused(with(|b| b.regs[3 * place + 2] = 2), 1, 4);
        refused(with(|b| b.regs[3 * place + 2] = !0), 1, 4);
    }
    for word in 0..3 {
        refused(with(|b| b.regs[word] = 1), 1, 4);
    }
}

// 5: too many steps.
#[test]
fn refusal_5() {
    refused(Bench::new(), 1_000_001, 5);
    refused(Bench::new(), u32::MAX, 5);
}

/// Tagged, with low 2^24 above high; no encoding has it nearer.
const LOW_ABOVE_HIGH: Capability = Capability {
    address: 0x0500_0000,
    metadata: 0x7E3C_0000 | 4 << 9 | 5,
    tag: 1,
};

/// Whether low is at most high at most 2^32.
fn is_sound(value: Capability) -> bool {
    let (low, high) = bounds(value.address, value.metadata);
    u64::from(low) <= high && high <= SPACE
}

fn is_sound_or_untagged(value: Capability) -> bool {
    value.tag == 0 || is_sound(value)
}

// 8: low above high in a tagged register, any of the 21 but c0, which is zero; sealed ones too. Untagged
// it is not refused.
#[test]
fn refusal_8() {
    assert_eq!(
        bounds(0x0500_0000, LOW_ABOVE_HIGH.metadata),
        (5 << 24, 4 << 24)
    );
    for place in 1..21 {
        for stored_type in [0, 1, 7] {
            let value = sealed(LOW_ABOVE_HIGH, stored_type);
            refused(with(|b| b.set(place, value)), 1, 8);
            refused(with(|b| b.set(place, value)), 0, 8);
            refused(with(|b| b.set(place, value)), 1_000_000, 8);
            let mut lent = with(|b| b.set(place, untagged(value)));
            assert_eq!(lent.run(0), 0);
        }
    }
}

// The end of the space is a high that is not refused, one byte or one unit more is.
#[test]
fn refusal_8_past_the_space() {
    let last_byte = 0x7E00_01FF;
    for (address, metadata, high, number) in [
        (!0, last_byte, SPACE, 0),
        (!0, last_byte | 1 << 9, SPACE + 1, 8),
        (0, MEMORY_ROOT, SPACE, 0),
        (0, MEMORY_ROOT | 1 << 9, SPACE + (1 << 24), 8),
        (0, 0x7E00_0000 | 16 << 9 | 8, 2 * SPACE - 496, 8),
    ] {
        let value = tagged(address, metadata);
        assert_eq!(bounds(address, metadata).1, high);
        assert_eq!(with(|b| b.set(9, value)).run(0), number << 48);
    }
}

// 8 comes after every other number.
#[test]
fn refusal_8_is_the_last() {
    let mut bench = with(|b| b.set(20, LOW_ABOVE_HIGH));
    refused(bench.clone(), 1, 8);
    bench.edition = 2;
    refused(bench.clone(), 1, 7);
    refused(bench.clone(), 1_000_001, 5);
    bench.regs[5] = 2;
    refused(bench.clone(), 1_000_001, 4);
    bench.revoked.clear();
    refused(bench.clone(), 1, 3);
    bench.start = 1;
    refused(bench.clone(), 1, 2);
    bench.regs.pop();
    refused(bench, 1, 1);
}

// Memory is not searched: a run loads such a value and goes on; the call after it is refused.
#[test]
fn a_run_goes_on_with_what_it_loads() {
    let mut bench = with(|b| {
        b.set(1, tagged(START, MEMORY_ROOT));
        b.put(64, LOW_ABOVE_HIGH);
        b.program(&[asm::load(3, 2, 1, 64), asm::addi(5, 0, 3)]);
    });
    let mut single = bench.clone();
    assert_eq!(bench.run(2), 2);
    assert_eq!(bench.get(2), LOW_ABOVE_HIGH);
    assert_eq!(bench.get(3), integer(5));
    refused(bench, 1, 8);
    assert_eq!(single.step(), RETIRED);
    refused(single, 1, 8);
}

// Of several numbers the lowest.
#[test]
fn the_lowest_number_wins() {
    let mut bench = with(|b| b.regs[0] = 1);
    refused(bench.clone(), 1_000_001, 4);
    bench.tags.clear();
    refused(bench.clone(), 1_000_001, 3);
    bench.start = 1;
    refused(bench.clone(), 1_000_001, 2);
    bench.regs.push(0);
    refused(bench, 1_000_001, 1);
}

// A good run of no steps leaves all as it was.
#[test]
fn a_run_of_nothing() {
    let mut bench = Bench::new();
    let before = bench.clone();
    assert_eq!(bench.run(0), 0);
    assert_eq!(bench, before);
}

// 1,000,000 steps are not refused, and the counts of retired and trapped steps are the
// definition's: an endless jump to itself retires every time; ECALL with the handler at the
// ECALL traps every time.
#[test]
fn the_longest_runs() {
    let mut jumping = Bench::new();
    jumping.program(&[asm::cjal(0, 0)]);
    assert_eq!(jumping.run(1_000_000), 1_000_000);
    let mut trapping = Bench::new();
    trapping.set(MTCC, tagged(START, EXECUTABLE_ROOT));
    trapping.program(&[asm::ECALL]);
    assert_eq!(trapping.run(1_000_000), 1_000_000 << 24);
}

/// A state of random words that no refusal applies to, its capabilities often usable.
fn random_bench(sample: &mut Sample) -> Bench {
    let mut bench = Bench::new();
    let roots = [MEMORY_ROOT, EXECUTABLE_ROOT, SEALING_ROOT];
    for place in 1..21 {
        let root = roots[sample.word() as usize % 3];
        let metadata = match sample.word() % 4 {
            0 => sample.word(),
            1 => root ^ 1 << (sample.word() % 32),
            _ => root,
        };
        let address = match sample.word() % 3 {
            0 => sample.word(),
            1 => START + (sample.word() & 0xFC),
            _ => START + (sample.word() & 0x1F8),
        };
        let value = tagged(address, metadata);
        bench.set(place, value);
        let wanted = !sample.word().is_multiple_of(8);
        bench.regs[3 * place + 2] = u32::from(wanted && is_sound(value));
    }
    bench.set(PCC, tagged(START + (sample.word() & 0xFC), EXECUTABLE_ROOT));
    bench.mem.fill_with(|| sample.word() as u8);
    bench.tags.fill_with(|| sample.word() as u8);
    bench.revoked.fill_with(|| sample.word() as u8);
    bench.regs[MSTATUS] = sample.word();
    // Half of the words get an opcode that means something.
    let opcodes = [
        0x03, 0x13, 0x23, 0x33, 0x5B, 0x63, 0x67, 0x6F, 0x73, 0x17, 0x7B,
    ];
    for word in bench.mem.chunks_exact_mut(4) {
        if sample.word() & 1 == 0 {
            word[0] = opcodes[sample.word() as usize % opcodes.len()] | word[0] & 0x80;
            word[1] &= 0x77;
            word[2] &= 0xF7;
        }
    }
    bench
}

// A run is its single steps, one after another, counted, where no register between them is unsound; else
// the single steps end there (document 02, 13). And what is lent stays good: c0 zero, tag words 0 or 1.
#[test]
fn a_run_is_its_steps() {
    let mut sample = Sample(31);
    let mut ended = 0;
    for _ in 0..3_000 {
        let mut whole = random_bench(&mut sample);
        if sample.word().is_multiple_of(16) {
            whole.set(1, tagged(START, MEMORY_ROOT));
            whole.put(64, LOW_ABOVE_HIGH);
            whole.program(&[asm::load(3, 2, 1, 64)]);
        }
        let mut single = whole.clone();
        let steps = sample.word() % 40;
        let together = whole.run(steps);
        let sound = |bench: &Bench| {
            (0..21)
                .map(|place| bench.get(place))
                .all(is_sound_or_untagged)
        };
        let mut apart = 0;
        let made = (0..steps).take_while(|_| {
            let sound = sound(&single);
            let answer = single.step();
            assert_eq!(answer >> 48 == 8, !sound);
            apart += if sound { answer } else { 0 };
            sound
        });
        let made = made.count() as u64;
        ended += u32::from(made < steps.into());
        if made == steps.into() {
            assert_eq!(together, apart);
            assert_eq!(whole, single);
        }
        let (trapped, retired) = (together >> 24, together & 0xFF_FFFF);
        assert_eq!(trapped + retired, u64::from(steps));
        assert_eq!(whole.regs[..3], [0, 0, 0]);
        assert!((0..21).all(|place| whole.regs[3 * place + 2] <= 1));
    }
    assert!((100..300).contains(&ended), "{ended}");
}

// Any slices of any length: an answer and no panic.
#[test]
fn any_slices() {
    let mut sample = Sample(32);
    for _ in 0..20_000 {
        let mut regs = vec![0; 64 + sample.word() as usize % 4];
        regs.fill_with(|| sample.word() & 1);
        let mut mem = vec![0u8; 32 * (sample.word() as usize % 6)];
        let mut tags = vec![0u8; sample.word() as usize % 4];
        let revoked = vec![0u8; sample.word() as usize % 4];
        let start = sample.word() & if sample.word() & 1 == 0 { !0 } else { !7 };
        let window = Window {
            start: 32 * (sample.word() % 4),
            size: 32 * (sample.word() % 8),
        };
        let board = Board {
            start,
            window,
            edition: sample.word() % 3,
        };
        let steps = sample.word() % 3;
        let answer = machine::run(&mut regs, board, &mut mem, &mut tags, &revoked, steps);
        assert!(matches!(answer >> 48, 0..=4 | 7 | 8));
    }
}
