//! Expectations come from the papers; each test names its place.

use super::*;
use crate::sample::Sample;

const MEMORY_ROOT: u32 = 0x7E3E_0000;
const EXECUTABLE_ROOT: u32 = 0x5E3E_0000;
const SEALING_ROOT: u32 = 0x4E3E_0000;

fn tagged(address: u32, metadata: u32) -> Capability {
    Capability {
        address,
        metadata,
        tag: 1,
    }
}

fn region(low: u32, high: u64, exact: bool) -> Cut {
    Cut::Region { low, high, exact }
}

/// A memory capability cut from the root at a base.
fn memory(base: u32, length: u32) -> Capability {
    set_bounds(tagged(base, MEMORY_ROOT), length)
}

// Document 01, "Cases", the first three: bounds and rights of the roots that Table 7.2 of the
// CHERIoT report names; 7.13.1 gives each the entire address space.
#[test]
fn roots() {
    assert_eq!(bounds(0, MEMORY_ROOT), (0, 1 << 32));
    assert_eq!(bounds(0, EXECUTABLE_ROOT), (0, 1 << 32));
    assert_eq!(bounds(0, SEALING_ROOT), (0, 1 << 32));
    assert_eq!(rights(MEMORY_ROOT), 0x07F);
    assert_eq!(rights(EXECUTABLE_ROOT), 0x1EB);
    assert_eq!(rights(SEALING_ROOT), 0xE01);
}

// CHERIoT report, 7.13.1: the rights that the text lists for each of the three roots.
#[test]
fn roots_by_name() {
    assert_eq!(rights(MEMORY_ROOT), GL | LD | SD | MC | SL | LG | LM);
    assert_eq!(rights(EXECUTABLE_ROOT), GL | EX | LD | MC | LG | LM | SR);
    assert_eq!(rights(SEALING_ROOT), GL | SE | US | U0);
}

// CHERIoT report, 7.13.3: the fields of the memory root, E = 15, T = 0x100, B = 0.
#[test]
fn root_apart() {
    let expected = Parts {
        reserved: 0,
        rights: 0x07F,
        stored_type: 0,
        stored_exponent: 15,
        top: 0x100,
        base: 0,
    };
    assert_eq!(apart(MEMORY_ROOT), expected);
}

// Document 01, "Cases": the two narrowings, 0x07F by all but SD and 0x1EB by all but LD.
#[test]
fn narrowing_cases() {
    let read_only = narrow(tagged(0, MEMORY_ROOT), !SD);
    assert_eq!(rights(read_only.metadata), 0x06B);
    assert_eq!(read_only.tag, 1);
    let nothing = narrow(tagged(0, EXECUTABLE_ROOT), !LD);
    assert_eq!(rights(nothing.metadata), 0x001);
}

// Document 01, "Cases": the four cuts at 0x20000001.
#[test]
fn cuts_at_an_odd_base() {
    let base = 0x2000_0001;
    assert_eq!(cut(base, 511), region(base, 0x2000_0200, true));
    assert_eq!(cut(base, 512), region(0x2000_0000, 0x2000_0202, false));
    assert_eq!(cut(base, 1_021), region(0x2000_0000, 0x2000_03FE, false));
    assert_eq!(cut(base, 1_022), region(0x2000_0000, 0x2000_0400, false));
}

// Document 01, "Cases": the three cuts at 0x20000000.
#[test]
fn cuts_at_an_even_base() {
    let base = 0x2000_0000;
    assert_eq!(cut(base, 8_372_224), region(base, 0x207F_C000, true));
    assert_eq!(cut(base, 8_372_225), region(base, 0x2100_0000, false));
    assert_eq!(cut(base, 0), region(base, 0x2000_0000, true));
}

// Document 01, "Answers": 6 for a cut by plain numbers that ends past 2^32; and
// "Tempting mistakes": high is not compared as 32 bits.
#[test]
fn cuts_at_the_end_of_the_space() {
    assert_eq!(cut(0xFFFF_FFFF, 1), region(0xFFFF_FFFF, 1 << 32, true));
    assert_eq!(cut(0xFFFF_FFFF, 2), Cut::Refused(6));
    assert_eq!(cut(1, 0xFFFF_FFFF), region(0, 1 << 32, false));
    assert_eq!(cut(2, 0xFFFF_FFFF), Cut::Refused(6));
    assert_eq!(cut(0, 0), region(0, 0, true));
}

// Document 01, "Cases": the three moves from the cut of 511 bytes.
#[test]
fn move_cases() {
    let first = memory(0x2000_0001, 511);
    assert_eq!(first.tag, 1);
    assert_eq!(move_address(first, 0x2000_0200).tag, 1);
    assert_eq!(move_address(first, 0x2000_0201).tag, 0);
    assert_eq!(move_address(first, 0x2000_0000).tag, 0);
    assert_eq!(
        move_address(first, 0x2000_0201).metadata,
        first.metadata,
        "a move changes only the address and the tag"
    );
}

// Document 01, "Capability word": a sealed capability loses its tag by a move, and nothing
// sets a cleared tag again.
#[test]
fn moves_of_sealed_and_untagged() {
    let sealed = tagged(4, with_type(EXECUTABLE_ROOT, 1));
    assert_eq!(move_address(sealed, 4).tag, 0);
    assert_eq!(move_address(sealed, 4).metadata, sealed.metadata);
    assert_eq!(move_address(NULL, 0), NULL);
}

// Document 01's PCC case, its part in this layer: [0xFFFFF000, 2^32) moved to 0 is untagged.
#[test]
fn move_across_the_end_of_the_space() {
    let last_page = set_bounds(tagged(0xFFFF_F000, EXECUTABLE_ROOT), 0x1000);
    let (low, high) = bounds(last_page.address, last_page.metadata);
    assert_eq!((low, high), (0xFFFF_F000, 1 << 32));
    assert_eq!(move_address(last_page, 0xFFFF_FFFC).tag, 1);
    assert_eq!(move_address(last_page, 0).tag, 0);
}

// CHERIoT report, 7.13.5: at the exponent 24 every address is representable.
#[test]
fn the_largest_exponent_moves_anywhere() {
    for address in [0, 1, 0x7FFF_FFFF, 0x8000_0000, 0xFFFF_FFFF] {
        assert_eq!(move_address(tagged(77, MEMORY_ROOT), address).tag, 1);
    }
}

// Document 01, "Tempting mistakes", the second. E = 15 stands for the exponent 24, so T of 1
// and B of 0 there give 2^24 bytes.
#[test]
fn stored_exponent_15_is_24() {
    let metadata = 15 << 18 | 1 << 9;
    assert_eq!(bounds(0, metadata), (0, 1 << 24));
    let fourteen = 14 << 18 | 1 << 9;
    assert_eq!(bounds(0, fourteen), (0, 1 << 14));
}

// Document 01, "Capability word", by hand: e = 0, B = 5, T = 3, so t = 1. At address 0x205
// mid = 5, h = 0: [0x205, 0x403). At 0x404 mid = 4 < B, h = 1: the same. At address 4 the
// upper part is 0 - 1: low = 2^32 - 512 + 5, high = 0 + 3.
#[test]
fn bounds_by_hand() {
    let metadata = 3 << 9 | 5;
    assert_eq!(bounds(0x205, metadata), (0x205, 0x403));
    assert_eq!(bounds(0x404, metadata), (0x205, 0x403));
    assert_eq!(bounds(4, metadata), (0xFFFF_FE05, 3));
    // T not below B: high = (0 - 1) * 512 + 7, modulo 2^33.
    assert_eq!(bounds(4, 7 << 9 | 5), (0xFFFF_FE05, (1 << 33) - 505));
}

// CHERIoT report, Table 7.4: the maximum length of each exponent is exact at an aligned base,
// and one more byte takes the next exponent (24 after 14).
#[test]
fn longest_length_of_each_exponent() {
    for e in 0..=14u32 {
        let longest = 511 << e;
        let taken = apart(memory(0x4000_0000, longest).metadata);
        assert_eq!(taken.stored_exponent, e);
        assert_eq!(
            cut(0x4000_0000, longest),
            region(0x4000_0000, 0x4000_0000 + u64::from(longest), true)
        );
        let next = apart(memory(0x4000_0000, longest + 1).metadata);
        assert_eq!(next.stored_exponent, e + 1);
    }
}

// CHERIoT report, Figure 7.4: one row after the other, with GL set and clear.
#[test]
fn permission_codes() {
    let rows = [
        (0b011111, LD | MC | SD | SL | LM | LG),
        (0b011000, LD | MC | SD),
        (0b010111, LD | MC | LM | LG),
        (0b010100, LD | MC),
        (0b010000, SD | MC),
        (0b010010, LD),
        (0b010001, SD),
        (0b010011, LD | SD),
        (0b001111, EX | LD | MC | SR | LM | LG),
        (0b001000, EX | LD | MC),
        (0b000111, U0 | SE | US),
        (0b000100, U0),
        (0b000010, SE),
        (0b000001, US),
        (0b000000, 0),
    ];
    for (code, expected) in rows {
        assert_eq!(rights_of(code), expected, "code {code:06b}");
        assert_eq!(rights_of(code | 0b100000), expected | GL);
    }
}

// Document 01, "Capability word": a word taken apart and put together is the same word; the
// CHERIoT report's prop_decEnc. All codes, then a sample.
#[test]
fn apart_and_together() {
    for code in 0..64 {
        assert_eq!(code_of(rights_of(code)), code);
    }
    let mut sample = Sample(1);
    for _ in 0..200_000 {
        let metadata = sample.word();
        assert_eq!(together(apart(metadata)), metadata);
    }
}

// The same for every one of the 2^32 words; run it in a release build.
#[test]
#[ignore = "minutes in a debug build"]
fn apart_and_together_for_every_word() {
    for metadata in 0..=u32::MAX {
        assert_eq!(together(apart(metadata)), metadata);
    }
}

// CHERIoT report, 7.13.1, the six steps of the encoding procedure; rights that the chosen
// format cannot hold are lost.
#[test]
fn encoding_procedure() {
    let encoded = |rights| rights_of(code_of(rights));
    assert_eq!(encoded(EX | LD | MC | SD | SL), EX | LD | MC);
    assert_eq!(encoded(LD | MC | SD | SR | U0), LD | MC | SD);
    assert_eq!(encoded(LD | MC | SL | LG), LD | MC | LG);
    assert_eq!(encoded(SD | MC | SL | LM | LG), SD | MC);
    assert_eq!(encoded(LD | SD | EX | LM), LD | SD);
    assert_eq!(encoded(LD | SE), LD);
    assert_eq!(encoded(MC | EX | SR | LM | US | GL), US | GL);
}

// The CHERIoT report's prop_andperms: the result has only rights of both.
#[test]
fn narrowing_never_adds() {
    let mut sample = Sample(2);
    for _ in 0..200_000 {
        let before = tagged(sample.word(), sample.word());
        let mask = sample.word();
        let after = narrow(before, mask);
        let both = rights(before.metadata) & mask;
        assert_eq!(rights(after.metadata) & !both, 0);
        assert_eq!(after.address, before.address);
        let outside = !(0x3F << 25);
        assert_eq!(after.metadata & outside, before.metadata & outside);
        // CAndPerm: a sealed one loses its tag.
        assert_eq!(after.tag == 1, !is_sealed(before.metadata));
    }
}

/// Appendix A's setCapBounds, step by step: exponent, ten-bit B and T, and exactness. It
/// takes the exponent another way than document 01 states it.
fn appendix_a_set_bounds(base: u32, length: u32) -> (u32, u32, u32, bool) {
    let top = u64::from(base) + u64::from(length);
    let ten = |value: u64| value as u32 & 0x3FF;
    let fields = |e: u32| {
        let lost_top = top & ((1 << e) - 1) != 0;
        let b = ten(u64::from(base) >> e);
        let t = ten((top >> e) + u64::from(lost_top));
        let lost_base = u64::from(base) & ((1 << e) - 1) != 0;
        (b, t, !(lost_base || lost_top))
    };
    let leading = (length >> 9).leading_zeros() - 9;
    let mut e = 23 - leading;
    if e > 14 {
        e = 24;
    }
    let (b, t, _) = fields(e);
    if t.wrapping_sub(b) & 0x3FF > 511 {
        e = if e < 14 { e + 1 } else { 24 };
    }
    let (b, t, exact) = fields(e);
    (e, t & 0x1FF, b & 0x1FF, exact)
}

// CHERIoT report, Appendix A, setCapBounds, requests past 2^32 among them: the least exponent
// of document 01 is the one that Appendix A arrives at.
#[test]
fn cuts_agree_with_appendix_a() {
    let mut sample = Sample(3);
    for _ in 0..300_000 {
        let length = sample.sized();
        let edge = 0u32.wrapping_sub(length);
        let base = if sample.word() & 1 == 0 {
            sample.word()
        } else {
            sample.near(edge)
        };
        let (e, top, bottom, exact) = appendix_a_set_bounds(base, length);
        let authority = tagged(base, MEMORY_ROOT);
        let parts = apart(set_bounds(authority, length).metadata);
        assert_eq!(parts.stored_exponent, if e == 24 { 15 } else { e });
        assert_eq!((parts.top, parts.base), (top, bottom));
        assert_eq!(cut_from(authority, length).1, exact);
    }
}

// Document 01, "Cutting bounds", its first sentence: the least exponent that fits, tried from 0
// upwards without the hint of the leading zeros.
#[test]
fn the_exponent_is_the_least() {
    let mut sample = Sample(4);
    for _ in 0..200_000 {
        let (base, length) = (sample.word(), sample.sized());
        let end = u64::from(base) + u64::from(length);
        let apart_by = |e: u32| {
            let unit = 1u64 << e;
            let down = u64::from(base) / unit * unit;
            let up = end.div_ceil(unit) * unit;
            up - down <= 511 * unit
        };
        let least = (0..=14).find(|&e| apart_by(e)).unwrap_or(24);
        assert_eq!(round(base, length).exponent, least);
        assert!(apart_by(least));
    }
}

// The CHERIoT report's prop_setbounds: the result covers the request, and exact says so.
#[test]
fn cuts_cover_their_request() {
    let mut sample = Sample(5);
    for _ in 0..200_000 {
        let (base, length) = (sample.word(), sample.sized());
        let end = u64::from(base) + u64::from(length);
        match cut(base, length) {
            Cut::Refused(reason) => assert!(end > SPACE && reason == 6),
            Cut::Region { low, high, exact } => {
                assert!(end <= SPACE && low <= base && end <= high && high <= SPACE);
                assert_eq!(exact, low == base && high == end);
            }
        }
    }
}

// The CHERIoT report's prop_setbounds_monotonic: a permitted cut of a cut stays inside it.
#[test]
fn cuts_of_cuts_stay_inside() {
    let mut sample = Sample(6);
    for _ in 0..200_000 {
        let outer = memory(sample.word(), sample.sized());
        if outer.tag == 0 {
            continue;
        }
        let (low, high) = bounds(outer.address, outer.metadata);
        let place = move_address(outer, sample.near(outer.address));
        let inner = set_bounds(place, sample.sized());
        if inner.tag == 1 {
            let (inner_low, inner_high) = bounds(inner.address, inner.metadata);
            assert!(low <= inner_low && inner_high <= high);
        }
    }
}

// The CHERIoT report's prop_repbounds and prop_repbounds_c: the tag stays exactly in
// [b, b + 2^(e+9)) or at the largest exponent, and always from base to top.
#[test]
fn representable_range() {
    let mut sample = Sample(7);
    for _ in 0..200_000 {
        let capability = memory(sample.word(), sample.sized());
        if capability.tag == 0 {
            continue;
        }
        let (low, high) = bounds(capability.address, capability.metadata);
        let address = sample.near(capability.address);
        let e = exponent(capability.metadata);
        let end = u64::from(low) + (1u64 << (e + 9));
        let inside = e == 24 || (low <= address && u64::from(address) < end);
        let moved = move_address(capability, address);
        assert_eq!(moved.tag == 1, inside);
        if low <= address && u64::from(address) <= high {
            assert_eq!(moved.tag, 1);
        }
    }
}

// The CHERIoT report's prop_crrl_cram: base and length so rounded are exact.
#[test]
fn rounded_length_and_mask_are_exact() {
    let mut sample = Sample(8);
    for _ in 0..200_000 {
        let (base, length) = (sample.word(), sample.sized());
        let new_base = base & representable_alignment_mask(length);
        let new_length = round_representable_length(length);
        let sane = u64::from(base) + u64::from(length) <= SPACE;
        if sane && (length == 0 || new_length != 0) {
            assert!(cut_from(tagged(new_base, MEMORY_ROOT), new_length).1);
            assert!(length <= new_length);
        }
    }
}

// CHERIoT report, CRoundRepresentableLength: a length that rounds up to 2^32 gives 0; Table 7.4
// has the alignments.
#[test]
fn rounded_lengths() {
    assert_eq!(round_representable_length(0), 0);
    assert_eq!(representable_alignment_mask(0), 0xFFFF_FFFF);
    assert_eq!(round_representable_length(511), 511);
    assert_eq!(round_representable_length(513), 514);
    assert_eq!(representable_alignment_mask(513), 0xFFFF_FFFE);
    // 1,023 takes e = 1 by its leading zeros, but 512 units of 2 are one too many: e = 2.
    assert_eq!(round_representable_length(1_023), 1_024);
    assert_eq!(representable_alignment_mask(1_023), 0xFFFF_FFFC);
    assert_eq!(round_representable_length(8_372_225), 0x0100_0000);
    assert_eq!(representable_alignment_mask(8_372_225), 0xFF00_0000);
    assert_eq!(round_representable_length(0xFFFF_FFFF), 0);
}

// Document 01, "Cutting bounds": CSetBounds keeps the tag exactly of a tagged, unsealed authority
// around the request; the exact form asks besides that nothing was rounded.
#[test]
fn set_bounds_and_the_tag() {
    let outer = memory(0x1000, 0x100);
    assert_eq!(set_bounds(outer, 0x100).tag, 1);
    assert_eq!(set_bounds(outer, 0x101).tag, 0);
    assert_eq!(set_bounds(Capability { tag: 0, ..outer }, 1).tag, 0);
    let sealed = tagged(0x1000, with_type(outer.metadata, 1));
    assert_eq!(set_bounds(sealed, 1).tag, 0);
    let odd = tagged(0x2000_0001, MEMORY_ROOT);
    assert_eq!(set_bounds_exact(odd, 511).tag, 1);
    assert_eq!(set_bounds_exact(odd, 512).tag, 0);
    assert_eq!(set_bounds(odd, 512).tag, 1);
    assert_eq!(
        set_bounds_exact(odd, 512).metadata,
        set_bounds(odd, 512).metadata
    );
}

// Document 01, "Cutting bounds": a request's end does not wrap.
#[test]
fn set_bounds_past_the_space() {
    let last = tagged(0xFFFF_FFFF, MEMORY_ROOT);
    assert_eq!(set_bounds(last, 1).tag, 1);
    assert_eq!(set_bounds(last, 2).tag, 0);
    assert_eq!(set_bounds(last, 2).address, 0xFFFF_FFFF);
    // E 15, T 511: bounds up to 511 * 2^24, a word that no cut of a root makes but that may
    // be lent. It contains the request, so the tag stays.
    let wide = tagged(0xFFFF_FFFF, 0x3F << 25 | 15 << 18 | 511 << 9);
    assert_eq!(set_bounds(wide, 2).tag, 1);
}

// CHERIoT report, 7.13.7: an empty capability may be cut at the very top of another.
#[test]
fn zero_length_at_the_top() {
    let outer = memory(0x1000, 0x100);
    let empty = set_bounds(move_address(outer, 0x1100), 0);
    assert_eq!(empty.tag, 1);
    assert_eq!(bounds(empty.address, empty.metadata), (0x1100, 0x1100));
}

// CHERIoT report, 7.13.6: what NULL decodes to: no tag, no type, no rights, empty at 0.
#[test]
fn null_decodes_to_nothing() {
    assert_eq!(bounds(0, 0), (0, 0));
    assert_eq!(rights(0), 0);
    assert!(!is_sealed(0));
    assert_eq!(seal_type(0), 0);
}

// CHERIoT report, 7.13.2: outside the executable format 1 to 7 stand for the types 9 to 15.
#[test]
fn four_bit_types() {
    for stored in 1..8 {
        assert_eq!(seal_type(with_type(EXECUTABLE_ROOT, stored)), stored);
        assert_eq!(seal_type(with_type(MEMORY_ROOT, stored)), stored + 8);
        assert_eq!(seal_type(with_type(SEALING_ROOT, stored)), stored + 8);
    }
    assert_eq!(seal_type(MEMORY_ROOT), 0);
}

// CHERIoT report, CSeal: executable capabilities take 1, 2, 3, 6 and 7, the others 9 to 15;
// 7.13.2: a reserved type or one not applicable clears the tag.
#[test]
fn sealing_types() {
    for wanted in 0..=20 {
        let authority = tagged(wanted, SEALING_ROOT);
        let code = seal(tagged(64, EXECUTABLE_ROOT), authority);
        assert_eq!(code.tag == 1, [1, 2, 3, 6, 7].contains(&wanted));
        let data = seal(tagged(64, MEMORY_ROOT), authority);
        assert_eq!(data.tag == 1, (9..=15).contains(&wanted));
        // sealCap writes the type either way; three bits of it are stored.
        assert_eq!(apart(data.metadata).stored_type, wanted & 7);
        assert_eq!(data.address, 64);
    }
}

// CHERIoT report, CSeal, `permitted`: each condition on the authority and on cs1 by itself.
#[test]
fn sealing_authority() {
    let data = tagged(64, MEMORY_ROOT);
    let good = tagged(9, SEALING_ROOT);
    assert_eq!(seal(data, good).tag, 1);
    assert_eq!(seal(data, Capability { tag: 0, ..good }).tag, 0);
    assert_eq!(seal(data, tagged(9, with_type(SEALING_ROOT, 1))).tag, 0);
    assert_eq!(seal(data, narrow(good, !SE)).tag, 0);
    assert_eq!(seal(data, narrow(good, !US)).tag, 1);
    // Bounds [9, 9) hold no otype; [9, 10) hold 9.
    assert_eq!(seal(data, set_bounds(good, 0)).tag, 0);
    assert_eq!(seal(data, set_bounds(good, 1)).tag, 1);
    assert_eq!(seal(seal(data, good), good).tag, 0);
    assert_eq!(seal(Capability { tag: 0, ..data }, good).tag, 0);
}

// CHERIoT report, CUnseal, `permitted` and new_global.
#[test]
fn unsealing() {
    let data = tagged(64, MEMORY_ROOT);
    let good = tagged(9, SEALING_ROOT);
    let sealed = seal(data, good);
    assert_eq!(unseal(sealed, good), data);
    assert_eq!(unseal(sealed, tagged(10, SEALING_ROOT)).tag, 0);
    assert_eq!(unseal(sealed, tagged(1, SEALING_ROOT)).tag, 0);
    assert_eq!(unseal(data, tagged(0, SEALING_ROOT)).tag, 0);
    assert_eq!(unseal(sealed, narrow(good, !US)).tag, 0);
    assert_eq!(unseal(sealed, narrow(good, !SE)).tag, 1);
    assert_eq!(unseal(sealed, set_bounds(good, 0)).tag, 0);
    assert_eq!(unseal(sealed, Capability { tag: 0, ..good }).tag, 0);
    let local = unseal(sealed, narrow(good, !GL));
    assert_eq!(local.tag, 1);
    assert_eq!(rights(local.metadata), 0x07F & !GL);
    assert_eq!(unseal(Capability { tag: 0, ..sealed }, good).tag, 0);
}

// Document 01, "Loading capabilities": each loss by itself, and none of them on untagged
// values.
#[test]
fn load_filter_rights() {
    let all = LD | MC | LG | LM;
    let data = tagged(64, MEMORY_ROOT);
    let never = |_| false;
    assert_eq!(load_filter(data, all, never), data);
    let local = load_filter(data, all & !LG, never);
    assert_eq!((rights(local.metadata), local.tag), (0x07F & !(GL | LG), 1));
    // Without SD the format becomes read-only, and SL goes as a side effect (7.13.1).
    let constant = load_filter(data, all & !LM, never);
    let left = 0x07F & !(SD | LM | SL);
    assert_eq!((rights(constant.metadata), constant.tag), (left, 1));
    assert_eq!(load_filter(data, all & !MC, never).tag, 0);
    let untagged = Capability { tag: 0, ..data };
    assert_eq!(load_filter(untagged, 0, |_| true), untagged);
}

// Document 01: for want of LM a sealed value keeps SD and LM; CHERIoT report, 7.13.1: for want
// of LG even a sealed one gives up GL and LG.
#[test]
fn load_filter_sealed() {
    let sealed = tagged(64, with_type(MEMORY_ROOT, 1));
    let loaded = load_filter(sealed, LD | MC, |_| false);
    assert_eq!(loaded.tag, 1);
    assert_eq!(rights(loaded.metadata), 0x07F & !(GL | LG));
    assert_eq!(seal_type(loaded.metadata), 9);
}

// Document 01: which values are revoked, and by the granule of the low bound, not of the
// address.
#[test]
fn load_filter_revocation() {
    let all = LD | MC | LG | LM;
    let object = move_address(memory(0x100, 0x40), 0x120);
    assert_eq!(load_filter(object, all, |low| low == 0x100).tag, 0);
    assert_eq!(load_filter(object, all, |low| low == 0x120).tag, 1);
}

// CHERIoT report, CLC, and document 02, 4: SE, US and U0 spare a value, each alone and together;
// GL alone does not. A token of one byte is such a value.
#[test]
fn load_filter_spares_sealing_and_tokens() {
    let all = LD | MC | LG | LM;
    let token = set_bounds(tagged(0x100, SEALING_ROOT), 1);
    for kept in 0..8 {
        let spares = [(SE, 1), (US, 2), (U0, 4)].map(|(right, bit)| right * (kept / bit % 2));
        let value = narrow(token, GL | spares[0] | spares[1] | spares[2]);
        assert_eq!(load_filter(value, all, |low| low == 0x101), value);
        let revoked = load_filter(value, all, |low| low == 0x100);
        assert_eq!(revoked.tag, u32::from(kept != 0), "{kept}");
        assert_eq!(revoked.metadata, value.metadata);
    }
}
