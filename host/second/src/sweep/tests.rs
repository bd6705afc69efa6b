//! Expectations are worked out by hand from document 02, sections 5 and 10, and document 01, "Loading
//! capabilities".

use super::*;
use lent::Window;

const START: u32 = 0x2000_0000;
/// Document 01's root for memory: all rights of the kind, exponent 24, the whole space.
const MEMORY_ROOT: u32 = 0x7E3E_0000;

/// 128 bytes whose window is the upper half, with its first granule revoked.
struct Lent {
    board: Board,
    mem: Vec<u8>,
    tags: Vec<u8>,
    revoked: Vec<u8>,
}

fn lent() -> Lent {
    Lent {
        board: Board {
            start: START,
            window: Window {
                start: 64,
                size: 64,
            },
            edition: 0,
        },
        mem: vec![0; 128],
        tags: vec![0; 2],
        revoked: vec![1],
    }
}

impl Lent {
    /// Puts a tagged capability of one byte, [low, low + 1), into a granule, its address moved on.
    fn put(&mut self, granule: usize, low: u32, on: u32, code: u32) {
        let root = Capability {
            address: low,
            metadata: (MEMORY_ROOT & 0x01FF_FFFF) | code << 25,
            tag: 1,
        };
        let cut = crate::capability::set_bounds(root, 1);
        let address = cut.address + on;
        self.mem[8 * granule..8 * granule + 4].copy_from_slice(&address.to_le_bytes());
        self.mem[8 * granule + 4..8 * granule + 8].copy_from_slice(&cut.metadata.to_le_bytes());
        self.tags[granule / 8] |= 1 << (granule % 8);
    }

    fn sweep(&mut self, granule: u32) -> u64 {
        sweep(
            self.board,
            &self.mem,
            &mut self.tags,
            &self.revoked,
            granule,
        )
    }
}

const READ_WRITE: u32 = 0b111111;

#[test]
fn numbers_rise_to_the_last_and_a_number_with_no_granule_is_refused() {
    let mut lent = lent();
    let answers: Vec<u64> = (0..18).map(|granule| lent.sweep(granule)).collect();
    let mut wanted: Vec<u64> = (1..16).collect();
    wanted.extend([4_294_967_296, 9 << 48, 9 << 48]);
    assert_eq!(answers, wanted);
    // Eight times these wraps in 32 bits.
    for granule in [1 << 29, (1 << 29) + 1, u32::MAX] {
        assert_eq!(lent.sweep(granule), 9 << 48);
    }
}

#[test]
fn the_tag_goes_by_the_low_bound_and_no_other_changes() {
    let mut lent = lent();
    lent.tags = vec![0xFF; 2];
    lent.put(3, START + 64, 0, READ_WRITE);
    let before = lent.mem.clone();
    assert_eq!(lent.sweep(3), 4);
    assert_eq!(lent.tags, [0b1111_0111, 0xFF]);
    // The granule above is clear, the one below outside the window.
    lent.put(3, START + 72, 0, READ_WRITE);
    assert_eq!((lent.sweep(3), lent.tags[0]), (4, 0xFF));
    lent.put(3, START + 63, 0, READ_WRITE);
    assert_eq!((lent.sweep(3), lent.tags[0]), (4, 0xFF));
    // The low bound counts and not the address, which is in the next granule.
    lent.put(3, START + 71, 1, READ_WRITE);
    assert_eq!((lent.sweep(3), lent.tags[0]), (4, 0b1111_0111));
    lent.put(3, START + 63, 1, READ_WRITE);
    assert_eq!((lent.sweep(3), lent.tags[0]), (4, 0xFF));
    assert_eq!(before[..24], lent.mem[..24]);
}

#[test]
fn what_seals_unseals_or_is_a_token_is_spared() {
    for code in 0..8 {
        let mut lent = lent();
        lent.put(15, START + 64, 0, 0b100000 | code);
        assert_eq!(lent.sweep(15), 1 << 32);
        let stays = code != 0;
        assert_eq!(lent.tags[1] == 0x80, stays, "code {code}");
    }
}

#[test]
fn nothing_is_revoked_outside_the_window() {
    let mut lent = lent();
    lent.put(0, START + 128, 0, READ_WRITE);
    lent.put(1, START - 1, 0, READ_WRITE);
    lent.revoked = vec![0xFF];
    assert_eq!((lent.sweep(0), lent.sweep(1)), (1, 2));
    assert_eq!(lent.tags, [3, 0]);
    let at_end = Window {
        start: 128,
        size: 0,
    };
    lent.board.window = at_end;
    lent.revoked.clear();
    assert_eq!((lent.sweep(0), lent.tags[0]), (1, 3));
}

#[test]
fn the_lowest_refusal_wins_and_changes_nothing() {
    let mut lent = lent();
    lent.put(0, START + 64, 0, READ_WRITE);
    let before = lent.tags.clone();
    lent.revoked.push(0);
    assert_eq!((lent.sweep(0), lent.sweep(16)), (3 << 48, 3 << 48));
    lent.board.window.start = 8;
    assert_eq!((lent.sweep(0), lent.sweep(16)), (2 << 48, 2 << 48));
    lent.board.window.start = 64;
    lent.board.start += 4;
    assert_eq!(lent.sweep(0), 2 << 48);
    lent.board.start = START;
    lent.revoked.pop();
    lent.tags.push(0);
    assert_eq!(lent.sweep(0), 3 << 48);
    lent.tags.pop();
    assert_eq!(lent.tags, before);
    assert_eq!((lent.sweep(0), lent.tags[0]), (1, 0));
}
