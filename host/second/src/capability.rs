//! Capabilities: the metadata word, rights, bounds, cuts, moves, narrowing, sealing and the
//! load filter (document 01, "Capability word", "Cutting bounds" and "Loading capabilities";
//! the CHERIoT report, 7.13 and Appendix A).

#[cfg(test)]
mod tests;

/// One capability as the register file holds it.
#[derive(Clone, Copy, PartialEq, Eq, Debug)]
pub struct Capability {
    pub address: u32,
    pub metadata: u32,
    pub tag: u32,
}

/// The NULL capability: untagged, everything zero (CHERIoT report, 7.13.6).
pub const NULL: Capability = Capability {
    address: 0,
    metadata: 0,
    tag: 0,
};

// The rights, numbered from bit 0 as in document 01, "Capability word".
pub const GL: u32 = 1 << 0;
pub const LG: u32 = 1 << 1;
pub const SD: u32 = 1 << 2;
pub const LM: u32 = 1 << 3;
pub const SL: u32 = 1 << 4;
pub const LD: u32 = 1 << 5;
pub const MC: u32 = 1 << 6;
pub const SR: u32 = 1 << 7;
pub const EX: u32 = 1 << 8;
pub const US: u32 = 1 << 9;
pub const SE: u32 = 1 << 10;
pub const U0: u32 = 1 << 11;

/// The end of the address space, as a whole number.
pub const SPACE: u64 = 1 << 32;

// Where the fields of the metadata word lie (document 01, "Capability word").
const RESERVED_AT: u32 = 31;
const CODE_AT: u32 = 25;
const TYPE_AT: u32 = 22;
const E_AT: u32 = 18;
const T_AT: u32 = 9;
const NINE_BITS: u32 = 0x1FF;

/// The exponent that the stored E of 15 stands for (CHERIoT report, 7.13.3).
const LARGEST_EXPONENT: u32 = 24;

/// A metadata word taken apart.
#[derive(Clone, Copy, PartialEq, Eq, Debug)]
pub struct Parts {
    pub reserved: u32,
    pub rights: u32,
    /// The three stored type bits.
    pub stored_type: u32,
    /// The four stored exponent bits, 15 standing for 24.
    pub stored_exponent: u32,
    pub top: u32,
    pub base: u32,
}

/// Takes a metadata word apart.
pub fn apart(metadata: u32) -> Parts {
    Parts {
        reserved: metadata >> RESERVED_AT,
        rights: rights(metadata),
        stored_type: stored_type(metadata),
        stored_exponent: (metadata >> E_AT) & 0xF,
        top: (metadata >> T_AT) & NINE_BITS,
        base: metadata & NINE_BITS,
    }
}

/// Puts a metadata word together; parts too wide for their field lose the upper bits.
pub fn together(parts: Parts) -> u32 {
    (parts.reserved & 1) << RESERVED_AT
        | code_of(parts.rights) << CODE_AT
        | (parts.stored_type & 7) << TYPE_AT
        | (parts.stored_exponent & 0xF) << E_AT
        | (parts.top & NINE_BITS) << T_AT
        | (parts.base & NINE_BITS)
}

/// The right, if the code's bit at that place grants it.
const fn granted(code: u32, place: u32, right: u32) -> u32 {
    if (code >> place) & 1 == 1 {
        right
    } else {
        0
    }
}

/// The rights one six-bit code means (CHERIoT report, Figure 7.4).
const fn rights_of_code(code: u32) -> u32 {
    let load_rights = granted(code, 1, LM) | granted(code, 0, LG);
    let others = match code & 0x1F {
        0b11000..=0b11111 => LD | MC | SD | granted(code, 2, SL) | load_rights,
        0b10100..=0b10111 => LD | MC | load_rights,
        0b10000 => SD | MC,
        0b10001..=0b10011 => granted(code, 1, LD) | granted(code, 0, SD),
        0b01000..=0b01111 => EX | LD | MC | granted(code, 2, SR) | load_rights,
        _ => granted(code, 2, U0) | granted(code, 1, SE) | granted(code, 0, US),
    };
    granted(code, 5, GL) | others
}

const RIGHTS: [u32; 64] = {
    let mut table = [0; 64];
    let mut code = 0;
    while code < 64 {
        table[code] = rights_of_code(code as u32);
        code += 1;
    }
    table
};

/// The rights that a six-bit code holds and those it also grants.
pub fn rights_of(code: u32) -> u32 {
    RIGHTS[(code & 0x3F) as usize]
}

/// The code for a set of rights: the first row that fits, the rest dropped
/// (document 01, "Capability word"; CHERIoT report, 7.13.1).
pub fn code_of(rights: u32) -> u32 {
    let has = |wanted: u32| rights & wanted == wanted;
    let bit = |right: u32, place: u32| u32::from(has(right)) << place;
    let others = if has(EX | LD | MC) {
        0b01000 | bit(SR, 2) | bit(LM, 1) | bit(LG, 0)
    } else if has(LD | MC | SD) {
        0b11000 | bit(SL, 2) | bit(LM, 1) | bit(LG, 0)
    } else if has(LD | MC) {
        0b10100 | bit(LM, 1) | bit(LG, 0)
    } else if has(SD | MC) {
        0b10000
    } else if has(LD) || has(SD) {
        0b10000 | bit(LD, 1) | bit(SD, 0)
    } else {
        bit(U0, 2) | bit(SE, 1) | bit(US, 0)
    };
    bit(GL, 5) | others
}

/// The rights of a capability.
pub fn rights(metadata: u32) -> u32 {
    rights_of(metadata >> CODE_AT)
}

/// Whether a capability has every one of the wanted rights.
pub fn has(metadata: u32, wanted: u32) -> bool {
    rights(metadata) & wanted == wanted
}

/// The same metadata word with its rights narrowed by a mask and encoded again.
fn narrowed(metadata: u32, mask: u32) -> u32 {
    let code = code_of(rights(metadata) & mask);
    metadata & !(0x3F << CODE_AT) | code << CODE_AT
}

/// The three stored type bits.
fn stored_type(metadata: u32) -> u32 {
    (metadata >> TYPE_AT) & 7
}

/// Whether a capability is sealed: its type is not 0.
pub fn is_sealed(metadata: u32) -> bool {
    stored_type(metadata) != 0
}

/// The four-bit type: a sealed capability without EX has bit 3 implicitly set
/// (CHERIoT report, 7.13.2).
pub fn seal_type(metadata: u32) -> u32 {
    let stored = stored_type(metadata);
    if stored == 0 || has(metadata, EX) {
        stored
    } else {
        stored + 8
    }
}

/// The same metadata word with other type bits; a four-bit type loses its upper bit
/// (CHERIoT report, Appendix A).
pub fn with_type(metadata: u32, new_type: u32) -> u32 {
    metadata & !(7 << TYPE_AT) | (new_type & 7) << TYPE_AT
}

/// The exponent: 24 when E is 15, else E.
fn exponent(metadata: u32) -> u32 {
    match (metadata >> E_AT) & 0xF {
        15 => LARGEST_EXPONENT,
        stored => stored,
    }
}

/// The bounds: low modulo 2^32 and high modulo 2^33 (document 01, "Capability word").
pub fn bounds(address: u32, metadata: u32) -> (u32, u64) {
    let e = exponent(metadata);
    let base = u64::from(metadata & NINE_BITS);
    let top = u64::from((metadata >> T_AT) & NINE_BITS);
    let address = u64::from(address);
    let mid = (address >> e) & u64::from(NINE_BITS);
    let up = address >> (e + 9);
    let h = u64::from(mid < base);
    let t = u64::from(top < base);
    // Both sums are taken modulo 2^64, of which 2^32 and 2^33 are divisors.
    let low = (up.wrapping_sub(h) << (e + 9)).wrapping_add(base << e);
    let high = ((up + t).wrapping_sub(h) << (e + 9)).wrapping_add(top << e);
    (low as u32, high & (2 * SPACE - 1))
}

/// Whether a capability's bounds hold `size` bytes at `address`, compared as whole numbers.
pub fn in_bounds(capability: Capability, address: u32, size: u32) -> bool {
    let (low, high) = bounds(capability.address, capability.metadata);
    low <= address && u64::from(address) + u64::from(size) <= high
}

/// A request rounded to multiples of 2^exponent; first and last count those multiples.
struct Rounded {
    exponent: u32,
    first: u64,
    last: u64,
}

fn round_to(base: u32, length: u32, exponent: u32) -> Rounded {
    let end = u64::from(base) + u64::from(length);
    Rounded {
        exponent,
        first: u64::from(base) >> exponent,
        last: end.div_ceil(1 << exponent),
    }
}

/// The rounding with the least exponent whose ends are at most 511 multiples apart
/// (document 01, "Cutting bounds").
fn round(base: u32, length: u32) -> Rounded {
    // A length of n bits is at least 2^(n-1), more than 511 * 2^e for every e below n - 9.
    let least = (32 - length.leading_zeros()).saturating_sub(9);
    (least..=14)
        .map(|e| round_to(base, length, e))
        .find(|rounded| rounded.last - rounded.first <= 511)
        .unwrap_or_else(|| round_to(base, length, LARGEST_EXPONENT))
}

/// The metadata word with the E, T and B of a rounding and everything else kept.
fn with_bounds(metadata: u32, rounded: &Rounded) -> u32 {
    let stored_exponent = if rounded.exponent == LARGEST_EXPONENT {
        15
    } else {
        rounded.exponent
    };
    let keep = metadata & !((1 << TYPE_AT) - 1);
    let top = rounded.last as u32 & NINE_BITS;
    let base = rounded.first as u32 & NINE_BITS;
    keep | stored_exponent << E_AT | top << T_AT | base
}

/// The answer to a cut asked by plain numbers.
#[derive(Clone, Copy, PartialEq, Eq, Debug)]
pub enum Cut {
    Region { low: u32, high: u64, exact: bool },
    Refused(u32),
}

/// Cuts by plain numbers; a request that ends past 2^32 is refused with 6
/// (document 01, "Answers").
pub fn cut(base: u32, length: u32) -> Cut {
    let end = u64::from(base) + u64::from(length);
    if end > SPACE {
        return Cut::Refused(6);
    }
    let (low, high) = bounds(base, with_bounds(0, &round(base, length)));
    let exact = low == base && high == end;
    Cut::Region { low, high, exact }
}

/// Both forms of CSetBounds: the result, and whether rounding changed nothing. The request
/// starts at the authority's address; its end is a whole number and may lie past 2^32.
fn cut_from(authority: Capability, length: u32) -> (Capability, bool) {
    let base = authority.address;
    let rounded = round(base, length);
    let exact = rounded.first << rounded.exponent == u64::from(base)
        && rounded.last << rounded.exponent == u64::from(base) + u64::from(length);
    let permitted = !is_sealed(authority.metadata) && in_bounds(authority, base, length);
    let result = Capability {
        address: base,
        metadata: with_bounds(authority.metadata, &rounded),
        tag: kept(authority.tag, permitted),
    };
    (result, exact)
}

/// CSetBounds: rounding does not matter for the tag.
pub fn set_bounds(authority: Capability, length: u32) -> Capability {
    cut_from(authority, length).0
}

/// CSetBoundsExact: as CSetBounds, and the tag is lost if rounding changed anything.
pub fn set_bounds_exact(authority: Capability, length: u32) -> Capability {
    let (result, exact) = cut_from(authority, length);
    Capability {
        tag: kept(result.tag, exact),
        ..result
    }
}

/// The address move: a set tag stays exactly if both bounds stay and the capability is unsealed.
pub fn move_address(capability: Capability, address: u32) -> Capability {
    let metadata = capability.metadata;
    let stays =
        !is_sealed(metadata) && bounds(address, metadata) == bounds(capability.address, metadata);
    Capability {
        address,
        metadata,
        tag: kept(capability.tag, stays),
    }
}

/// The narrowing of CAndPerm: the rights common to capability and mask; a sealed capability
/// loses its tag (CHERIoT report, CAndPerm).
pub fn narrow(capability: Capability, mask: u32) -> Capability {
    Capability {
        address: capability.address,
        metadata: narrowed(capability.metadata, mask),
        tag: kept(capability.tag, !is_sealed(capability.metadata)),
    }
}

/// Whether an authority may seal or unseal with its address: tagged, unsealed, with the right,
/// and the address inside its bounds (CHERIoT report, CSeal and CUnseal).
fn authorises(authority: Capability, right: u32) -> bool {
    authority.tag != 0
        && !is_sealed(authority.metadata)
        && has(authority.metadata, right)
        && in_bounds(authority, authority.address, 1)
}

/// CSeal: the type bits come from the authority's address, whether or not the tag stays.
pub fn seal(capability: Capability, authority: Capability) -> Capability {
    let wanted = authority.address;
    let type_fits = if has(capability.metadata, EX) {
        matches!(wanted, 1 | 2 | 3 | 6 | 7)
    } else {
        matches!(wanted, 9..=15)
    };
    let permitted = type_fits && !is_sealed(capability.metadata) && authorises(authority, SE);
    Capability {
        address: capability.address,
        metadata: with_type(capability.metadata, wanted),
        tag: kept(capability.tag, permitted),
    }
}

/// CUnseal: type 0, and GL only if the authority has it too.
pub fn unseal(capability: Capability, authority: Capability) -> Capability {
    let metadata = capability.metadata;
    let permitted = is_sealed(metadata)
        && authority.address == seal_type(metadata)
        && authorises(authority, US);
    let mask = if has(authority.metadata, GL) { !0 } else { !GL };
    Capability {
        address: capability.address,
        metadata: with_type(narrowed(metadata, mask), 0),
        tag: kept(capability.tag, permitted),
    }
}

/// CRepresentableAlignmentMask: ones above the exponent that a cut of (0, length) takes.
pub fn representable_alignment_mask(length: u32) -> u32 {
    !0 << round(0, length).exponent
}

/// CRoundRepresentableLength: 0 where the rounded length is 2^32.
pub fn round_representable_length(length: u32) -> u32 {
    let rounded = round(0, length);
    (rounded.last << rounded.exponent) as u32
}

/// What CLC makes of a value read through an authority with these rights; `revoked` answers
/// for the granule that holds a low bound (document 01, "Loading capabilities").
pub fn load_filter(
    value: Capability,
    authority_rights: u32,
    revoked: impl Fn(u32) -> bool,
) -> Capability {
    let mut loaded = value;
    if loaded.tag == 0 {
        return loaded;
    }
    // A sealed value loses GL and LG and stays tagged (CHERIoT report, 7.13.1, LG).
    if authority_rights & LG == 0 {
        loaded.metadata = narrowed(loaded.metadata, !(GL | LG));
    }
    if authority_rights & LM == 0 && !is_sealed(loaded.metadata) {
        loaded.metadata = narrowed(loaded.metadata, !(SD | LM));
    }
    let (low, _) = bounds(loaded.address, loaded.metadata);
    // The report's CLC spares what can seal or unseal, and tokens (document 02, 4).
    let revocable = rights(loaded.metadata) & (SE | US | U0) == 0;
    let stays = authority_rights & MC != 0 && !(revocable && revoked(low));
    loaded.tag = kept(loaded.tag, stays);
    loaded
}

/// A tag that stays only if a condition holds.
fn kept(tag: u32, condition: bool) -> u32 {
    if condition {
        tag
    } else {
        0
    }
}
