//! Capabilities for the comparisons: sound ones near each other and near memory's ends, sealed
//! ones, sentries, sealing authorities, integers, and words that are anything.

use crate::cuts::{lookup, request};
use crate::random::Random;
use second::capability::{bounds, move_address, set_bounds, with_type};
use second::Capability;

/// The kinds of rights, by the rows of document 01's table.
#[derive(Clone, Copy, PartialEq, Eq)]
pub enum Rights {
    ReadWrite,
    ReadOnly,
    WriteOnly,
    Data,
    Executable,
    Sealing,
}

/// A code of that row, with GL three times in four.
fn code(random: &mut Random, rights: Rights) -> u32 {
    let others = match rights {
        Rights::ReadWrite => 0b11000 | random.below(8),
        Rights::ReadOnly => 0b10100 | random.below(4),
        Rights::WriteOnly => 0b10000,
        Rights::Data => 0b10001 + random.below(3),
        Rights::Executable => 0b01000 | random.below(8),
        Rights::Sealing => random.below(8),
    };
    let global = u32::from(!random.one_in(4)) << 5;
    global | others
}

/// The capability of the whole address space with a code.
pub fn root(code: u32, address: u32) -> Capability {
    Capability {
        address,
        metadata: code << 25 | 15 << 18 | 0x100 << 9,
        tag: 1,
    }
}

/// A root with a code cut to a base and a length, or to the end of the address space.
fn cut(code: u32, base: u32, length: u32) -> Capability {
    let most = (1u64 << 32) - u64::from(base);
    let length = u64::from(length).min(most).min(u64::from(u32::MAX));
    set_bounds(root(code, base), length as u32)
}

/// A capability of a kind of rights, cut to a base and a length.
pub fn region(random: &mut Random, rights: Rights, base: u32, length: u32) -> Capability {
    cut(code(random, rights), base, length)
}

/// An unsealed value, sealed with three type bits.
pub fn sealed(capability: Capability, stored_type: u32) -> Capability {
    Capability {
        metadata: with_type(capability.metadata, stored_type),
        ..capability
    }
}

/// An integer in a register.
pub fn integer(value: u32) -> Capability {
    Capability {
        address: value,
        metadata: 0,
        tag: 0,
    }
}

/// Where memory lies.
#[derive(Clone, Copy, Debug)]
pub struct Layout {
    pub start: u32,
    pub size: u32,
}

impl Layout {
    /// An address inside memory, a multiple of so many bytes; often the first or the last.
    pub fn inside(self, random: &mut Random, multiple: u32) -> u32 {
        let places = self.size / multiple;
        let place = match random.below(8) {
            0 => 0,
            1 => places - 1,
            _ => random.below(places),
        };
        self.start.wrapping_add(place * multiple)
    }

    /// An address: inside memory, at one of its ends, at an end of the address space, or any.
    pub fn address(self, random: &mut Random) -> u32 {
        match random.below(16) {
            0..=7 => self.inside(random, 8),
            8 | 9 => random.near(self.start),
            10 | 11 => random.near(self.start.wrapping_add(self.size)),
            12 => random.near(0),
            13 => self.inside(random, 1),
            14 => random.number(),
            _ => random.word(),
        }
    }

    /// A length that ends inside memory, at its end, at the end of the address space, or anywhere.
    fn length(self, random: &mut Random, base: u32) -> u32 {
        let to_end = self.start.wrapping_add(self.size).wrapping_sub(base);
        match random.below(16) {
            0..=3 => random.near(to_end),
            4..=6 => to_end,
            7..=9 => random.below(self.size + 1),
            10 => random.pick([0, 1, 2, 4, 7, 8, 16, 511, 512]),
            11 => random.near(base.wrapping_neg()),
            12 => base.wrapping_neg(),
            13 => self.size,
            _ => random.sized(),
        }
    }
}

/// The same capability with its address at an edge of its bounds, inside them, or where it was.
fn placed(random: &mut Random, capability: Capability) -> Capability {
    let (low, high) = bounds(capability.address, capability.metadata);
    let length = high.saturating_sub(low.into());
    let address = match random.below(8) {
        0 => random.near(low),
        1 => random.near(high as u32),
        2 => random.near((high as u32).wrapping_sub(8)),
        3 | 4 => return capability,
        _ => low.wrapping_add(((length * u64::from(random.word())) >> 32) as u32 & !7),
    };
    move_address(capability, address)
}

/// A capability cut from a root, with bounds near memory; tagged where the cut and the move keep
/// the tag.
pub fn sound(random: &mut Random, layout: Layout, rights: Rights) -> Capability {
    let code = code(random, rights);
    let base = layout.address(random);
    if random.one_in(8) {
        return root(code, base);
    }
    let length = layout.length(random, base);
    let cut = set_bounds(root(code, base), length);
    placed(random, cut)
}

/// A capability whose bounds hold all of memory and a little more, at an address.
pub fn wide(random: &mut Random, layout: Layout, rights: Rights, address: u32) -> Capability {
    let code = code(random, rights);
    let whole = match random.below(4) {
        0 => root(code, layout.start),
        1 => cut(code, layout.start, layout.size),
        2 => cut(code, layout.start & !0xFFF, 0x1_2000),
        _ => {
            let below = random.pick([0, 0, 8, 64, 256]).min(layout.start);
            cut(code, layout.start - below, layout.size + random.near(below))
        }
    };
    move_address(whole, address)
}

/// A capability whose bounds lie close around some bytes, with its address in or near them.
pub fn tight(random: &mut Random, rights: Rights, address: u32, size: u32) -> Capability {
    let code = code(random, rights);
    let base = random.near(address);
    let end = random.near(address.wrapping_add(size));
    placed(random, cut(code, base, end.wrapping_sub(base)))
}

/// An executable capability whose bounds hold an instruction and little more, at its address.
pub fn around(random: &mut Random, address: u32) -> Capability {
    let code = code(random, Rights::Executable);
    let below = random.pick([0, 0, 2, 4, 8, 64]).min(address);
    let above = random.pick([2, 3, 4, 4, 5, 6, 8, 64, 512]);
    move_address(cut(code, address - below, below + above), address)
}

/// The rows of rights, evenly.
pub fn rights(random: &mut Random) -> Rights {
    random.pick([
        Rights::ReadWrite,
        Rights::ReadWrite,
        Rights::ReadOnly,
        Rights::WriteOnly,
        Rights::Data,
        Rights::Executable,
        Rights::Sealing,
    ])
}

/// An authority to seal and unseal: bounds and address near the object types.
pub fn sealing(random: &mut Random, address: u32) -> Capability {
    let code = 0b100000 | random.pick([0b011, 0b011, 0b111, 0b001, 0b010]);
    let code = if random.one_in(4) { code & 0x1F } else { code };
    if random.one_in(3) {
        return root(code, address);
    }
    let base = random.below(address.min(20) + 1);
    let length = random.near(address.wrapping_sub(base).wrapping_add(1));
    move_address(set_bounds(root(code, base), length), address)
}

/// A sentry, or another sealed executable capability, at an address.
pub fn sentry(random: &mut Random, layout: Layout, address: u32) -> Capability {
    let target = wide(random, layout, Rights::Executable, address);
    let stored_type = random.pick([1, 2, 3, 1, 2, 3, 4, 5, 6, 7]);
    sealed(target, stored_type)
}

/// Words that are anything, tagged or not, with metadata at the edges of the encoding.
pub fn anything(random: &mut Random) -> Capability {
    let (address, metadata) = if random.one_in(4) {
        (random.word(), random.word())
    } else {
        lookup(random)
    };
    Capability {
        address,
        metadata,
        tag: random.below(2),
    }
}

/// A capability cut from a root anywhere, sometimes sealed.
pub fn sound_anywhere(random: &mut Random) -> Capability {
    let (base, length) = request(random);
    let rights = rights(random);
    let cut = set_bounds(root(code(random, rights), base), length);
    let capability = placed(random, cut);
    match random.below(8) {
        0 => sealed(capability, random.below(8)),
        _ => capability,
    }
}

/// What a general register may hold.
pub fn register(random: &mut Random, layout: Layout) -> Capability {
    let rights = rights(random);
    match random.below(16) {
        0..=6 => sound(random, layout, rights),
        7 => {
            let capability = sound(random, layout, rights);
            sealed(capability, random.below(8))
        }
        8 => {
            let address = layout.inside(random, 2);
            sentry(random, layout, address)
        }
        9 => {
            let address = random.below(17);
            sealing(random, address)
        }
        10 => anything(random),
        11 => Capability {
            tag: 0,
            ..sound(random, layout, rights)
        },
        12 => integer(layout.address(random)),
        13 => integer(random.below(17)),
        _ => integer(random.number()),
    }
}
