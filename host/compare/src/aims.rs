//! Operands that fit: the registers and memory that make an instruction reach what it can do, each
//! of its checks passed, and each one failed by a little.

use crate::capabilities::{
    around, integer, region, register, rights, sealed, sealing, sentry, sound, tight, wide, Layout,
    Rights,
};
use crate::cuts::request;
use crate::filter::FAR;
use crate::mark;
use crate::operands::{any, encode, Operands};
use crate::random::Random;
use crate::rows::{Aim, Form, Outcome, Row, EXTREMES};
use crate::state::{as_second, lend};
use lent::{State, MSHWM, MSHWMB, PCC};
use second::capability::{bounds, has, move_address, narrow, set_bounds, EX};
use second::Capability;

/// A state under construction, and the operands that are made to fit it.
struct Scene<'a> {
    random: &'a mut Random,
    layout: Layout,
    state: &'a mut State,
    form: Form,
    operands: Operands,
}

/// A word of a row; three times in four its operands are aimed, and now and then it names a
/// register above 15.
pub fn word(random: &mut Random, layout: Layout, state: &mut State, row: &Row) -> u32 {
    let operands = any(random, row.form);
    let mut scene = Scene {
        random,
        layout,
        state,
        form: row.form,
        operands,
    };
    if !scene.random.one_in(4) {
        scene.aim(row);
    }
    if scene.random.one_in(24) {
        scene.misname();
    }
    encode(row, &scene.operands)
}

impl Scene<'_> {
    /// Names a register above 15.
    fn misname(&mut self) {
        match self.random.below(3) {
            0 => self.operands.rd += 16,
            1 => self.operands.rs1 += 16,
            _ => self.operands.rs2 += 16,
        }
    }

    fn first(&self) -> Capability {
        as_second(self.state.capability(self.operands.rs1 as usize))
    }

    /// Sets rs1; c0 cannot be set, so another register takes its place.
    fn set_first(&mut self, value: Capability) {
        if self.operands.rs1 == 0 {
            self.operands.rs1 = 1 + self.random.below(15);
        }
        self.state.set(self.operands.rs1 as usize, lend(value));
    }

    fn set_second(&mut self, value: Capability) {
        if self.operands.rs2 == 0 {
            self.operands.rs2 = 1 + self.random.below(15);
        }
        self.state.set(self.operands.rs2 as usize, lend(value));
    }

    /// Makes the operands fit the row, or fail one of its checks.
    fn aim(&mut self, row: &Row) {
        match row.aim {
            Aim::Nothing => {}
            Aim::Load(size) => self.aim_load(size),
            Aim::Store(size) => self.aim_store(size),
            Aim::Jump => self.aim_jump(),
            Aim::JumpRegister => self.aim_jump_register(),
            Aim::Special => self.aim_special(),
            Aim::Seal => self.aim_seal(),
            Aim::Unseal => self.aim_unseal(),
            Aim::Length => {
                let length = request(self.random).1;
                self.set_first(integer(length));
            }
            Aim::Cut => self.aim_cut(row.form),
            Aim::SetAddress => {
                let address = self.aimed_address();
                self.set_second(integer(address));
            }
            Aim::AddAddress => {
                let sum = self.aimed_address().wrapping_sub(self.first().address);
                let beyond = self.hold(sum);
                let first = self.first();
                self.set_first(move_address(first, first.address.wrapping_add(beyond)));
                if row.form == Form::Register {
                    self.set_second(integer(sum));
                }
            }
            Aim::Narrow => self.aim_narrow(),
            Aim::Subset => self.aim_subset(),
            Aim::Equal => self.aim_equal(),
            Aim::Compare => self.aim_compare(),
            Aim::Extremes => self.aim_extremes(),
            Aim::Mark => self.aim_mark(),
        }
        if self.random.one_in(2) && row.can(Outcome::Taken) {
            match row.form {
                Form::Branch => self.aim_compare(),
                _ => {
                    let value = self.random.near(0);
                    self.set_first(integer(value));
                }
            }
        }
    }

    /// Takes a wanted immediate as far as the form can hold it: what is left to add elsewhere.
    fn hold(&mut self, wanted: u32) -> u32 {
        self.operands.immediate = self.form.held(wanted);
        wanted.wrapping_sub(self.operands.immediate)
    }

    /// An address for an access of so many bytes: mostly aligned and in memory.
    fn accessed(&mut self, size: u32) -> u32 {
        match self.random.below(16) {
            0..=9 => self.layout.inside(self.random, size),
            10 | 11 => self.layout.inside(self.random, 1),
            12 => self.random.near(self.layout.start),
            13 => {
                let end = self.layout.start.wrapping_add(self.layout.size);
                self.random.near(end.wrapping_sub(size))
            }
            _ => self.layout.address(self.random),
        }
    }

    /// Makes rs1 an authority for an access: either its bounds hold memory, or they lie close
    /// around the access.
    fn authorise(&mut self, rights: Rights, address: u32, size: u32) {
        let authority = if self.random.one_in(3) {
            let authority = tight(self.random, rights, address, size);
            let beyond = self.hold(address.wrapping_sub(authority.address));
            move_address(authority, authority.address.wrapping_add(beyond))
        } else {
            let wanted = self.random.pick([0u32, 0, 0, 8, 4, 1, 0xFFFF_FFF8]);
            self.hold(wanted);
            let from = address.wrapping_sub(self.operands.immediate);
            wide(self.random, self.layout, rights, from)
        };
        let authority = match self.random.below(24) {
            0 => sealed(authority, self.random.below(8)),
            1 => Capability {
                tag: 0,
                ..authority
            },
            _ => authority,
        };
        self.set_first(authority);
    }

    fn aim_load(&mut self, size: u32) {
        use Rights::{Data, Executable, ReadOnly, ReadWrite, Sealing, WriteOnly};
        let all = [
            ReadWrite, ReadWrite, ReadOnly, ReadOnly, Data, Executable, WriteOnly, Sealing,
        ];
        let rights = self.random.pick(all);
        let address = self.accessed(size);
        self.authorise(rights, address, size);
        if size == 8 {
            let value = self.stored();
            self.state.write_capability(address & !7, lend(value));
        }
    }

    /// A capability whose low bound lies in the window, at an end of it or near one.
    fn at_the_window(&mut self, rights: Rights) -> Capability {
        let window = self.state.window;
        let first = self.state.start.wrapping_add(window.start);
        let end = first.wrapping_add(window.size);
        let inside = first.wrapping_add(self.random.below(window.size));
        let edge = self.random.pick([first, end, inside, inside]);
        let low = match self.random.below(4) {
            0 => edge,
            1 => edge.wrapping_sub(1),
            _ => self.random.near(edge),
        };
        let length = self.random.pick([0, 1, 1, 2, 8, 16, 64, 300]);
        region(self.random, rights, low, length)
    }

    /// A capability whose low bound lies far into the window.
    fn far_into_the_window(&mut self, rights: Rights) -> Capability {
        let window = self.state.window;
        let first = self.state.start.wrapping_add(window.start);
        let beyond = FAR + self.random.below(window.size - FAR);
        let length = self.random.pick([0, 1, 8, 64]);
        region(self.random, rights, first.wrapping_add(beyond), length)
    }

    /// A capability in memory: mostly tagged, with bounds that start in memory or at the window. Large
    /// windows are rare, so that in one they mostly start far into it.
    fn stored(&mut self) -> Capability {
        let rights = rights(self.random);
        let large = self.state.window.size > FAR;
        let mut value = match self.random.below(8) {
            0 | 1 => register(self.random, self.layout),
            _ if large => self.far_into_the_window(rights),
            2 | 3 => self.at_the_window(rights),
            _ => sound(self.random, self.layout, rights),
        };
        if self.random.one_in(4) {
            value = sealed(value, self.random.below(8));
        }
        value.tag = u32::from(!self.random.one_in(6));
        value
    }

    fn aim_store(&mut self, size: u32) {
        use Rights::{Data, Executable, ReadOnly, ReadWrite, WriteOnly};
        let all = [
            ReadWrite, ReadWrite, ReadWrite, WriteOnly, Data, Data, ReadOnly, Executable,
        ];
        let rights = self.random.pick(all);
        let address = self.accessed(size);
        self.authorise(rights, address, size);
        if !self.random.one_in(4) {
            mark::around(self.random, address, self.state);
        }
    }

    /// Old words with low bits most of the time; 0 by register 0, by another one, or another number.
    fn aim_mark(&mut self) {
        for place in [MSHWM, MSHWMB] {
            self.state.regs[place] |= self.random.below(16);
        }
        match self.random.below(3) {
            0 => {
                self.operands.rs1 = 0;
                self.operands.immediate = 0;
            }
            1 => self.set_first(integer(0)),
            _ => {
                let value = integer(self.random.number());
                self.set_first(value);
            }
        }
    }

    /// A jump target: mostly an instruction in memory.
    fn target(&mut self) -> u32 {
        match self.random.below(8) {
            0..=2 => self.layout.inside(self.random, 4),
            3 | 4 => self.layout.inside(self.random, 2),
            5 => self.layout.inside(self.random, 1),
            _ => self.layout.address(self.random),
        }
    }

    /// An offset from PCC to a target or to an edge of PCC's bounds.
    fn aim_jump(&mut self) {
        let pcc = self.state.capability(PCC);
        let (low, high) = bounds(pcc.address, pcc.metadata);
        let target = match self.random.below(4) {
            0 => self.random.near(low),
            1 => self.random.near((high as u32).wrapping_sub(2)),
            _ => self.target(),
        };
        self.hold(target.wrapping_sub(pcc.address));
    }

    fn aim_jump_register(&mut self) {
        let target = self.target();
        if self.random.one_in(4) {
            return self.authorise(Rights::Executable, target, 2);
        }
        let wanted = self.random.pick([0, 0, 0, 0, 0, 4, 1, 0xFFFF_FFFE]);
        self.hold(wanted);
        let from = target.wrapping_sub(self.operands.immediate);
        let source = if self.random.one_in(2) {
            sentry(self.random, self.layout, from)
        } else {
            wide(self.random, self.layout, Rights::Executable, from)
        };
        self.pair();
        self.set_first(source);
    }

    /// Names, half of the time, registers that the later edition tells apart: a return's, a call's, or a
    /// link in c1 or a target in c1 alone.
    fn pair(&mut self) {
        if !matches!(self.form, Form::Short(_)) && self.random.one_in(2) {
            let any = self.random.below(16);
            let (rd, rs1) =
                self.random
                    .pick([(0, 1), (0, 1), (1, any), (1, 1), (any, 1), (0, any)]);
            (self.operands.rd, self.operands.rs1) = (rd, rs1);
        }
    }

    /// A capability to write to a special register, at any address in memory.
    fn aim_special(&mut self) {
        let address = self.layout.inside(self.random, 1);
        let value = wide(self.random, self.layout, Rights::Executable, address);
        let value = match self.random.below(4) {
            0 => sealed(value, self.random.below(8)),
            1 => around(self.random, address),
            _ => value,
        };
        self.set_first(value);
        if self.random.one_in(4) {
            self.operands.rs1 = 0;
        }
    }

    /// Something to seal.
    fn sealable(&mut self) -> Capability {
        let rights = self
            .random
            .pick([Rights::Executable, Rights::ReadWrite, Rights::Data]);
        sound(self.random, self.layout, rights)
    }

    /// An authority for an object type, now and then sealed itself or untagged.
    fn set_authority(&mut self, object_type: u32) {
        let authority = sealing(self.random, object_type);
        let authority = match self.random.below(12) {
            0 => sealed(authority, 1 + self.random.below(7)),
            1 => Capability {
                tag: 0,
                ..authority
            },
            _ => authority,
        };
        self.set_second(authority);
    }

    fn aim_seal(&mut self) {
        let value = self.sealable();
        let value = match self.random.below(8) {
            0 => sealed(value, self.random.below(8)),
            _ => value,
        };
        self.set_first(value);
        let object_type = self.random.below(17);
        self.set_authority(object_type);
    }

    fn aim_unseal(&mut self) {
        let stored = self.random.below(8);
        let value = sealed(self.sealable(), stored);
        self.set_first(value);
        let object_type = if has(value.metadata, EX) {
            stored
        } else {
            stored + 8
        };
        let asked = match self.random.below(8) {
            0 => stored,
            1 => stored + 8,
            2 => self.random.near(object_type),
            _ => object_type,
        };
        self.set_authority(asked);
    }

    /// A length near what is left of the bounds.
    fn aim_cut(&mut self, form: Form) {
        let rights = rights(self.random);
        let value = sound(self.random, self.layout, rights);
        self.set_first(value);
        let (_, high) = bounds(value.address, value.metadata);
        let left = (high as u32).wrapping_sub(value.address);
        let length = match self.random.below(4) {
            0 => request(self.random).1,
            1 => self.random.below(left),
            _ => self.random.near(left),
        };
        self.operands.immediate = length;
        if form == Form::Register {
            self.set_second(integer(length));
        }
    }

    /// A value in rs1, and an address near an edge of its bounds or of what it can represent.
    fn aimed_address(&mut self) -> u32 {
        let rights = rights(self.random);
        let value = sound(self.random, self.layout, rights);
        self.set_first(value);
        let (low, high) = bounds(value.address, value.metadata);
        let span = 512u32 << ((value.metadata >> 18) & 0xF);
        match self.random.below(4) {
            0 => self.random.near(low),
            1 => self.random.near(high as u32),
            2 => self.random.near(low.wrapping_add(span)),
            _ => self.layout.address(self.random),
        }
    }

    fn aim_narrow(&mut self) {
        let rights = rights(self.random);
        let value = sound(self.random, self.layout, rights);
        self.set_first(value);
        let mask = match self.random.below(4) {
            0 => self.random.word(),
            1 => !0,
            _ => !(1 << self.random.below(12)) & !(1 << self.random.below(12)),
        };
        self.set_second(integer(mask));
    }

    /// Two capabilities of which one is derived from the other.
    fn aim_subset(&mut self) {
        let rights = rights(self.random);
        let outer = sound(self.random, self.layout, rights);
        let (_, high) = bounds(outer.address, outer.metadata);
        let left = (high as u32).wrapping_sub(outer.address);
        let mut inner = outer;
        if self.random.one_in(2) {
            inner = set_bounds(inner, self.random.near(left));
        }
        if self.random.one_in(2) {
            inner = narrow(inner, !(1 << self.random.below(12)));
        }
        if !self.random.one_in(4) {
            inner.tag = outer.tag;
        }
        let (one, other) = if self.random.one_in(3) {
            (inner, outer)
        } else {
            (outer, inner)
        };
        self.set_first(one);
        self.set_second(other);
    }

    /// Two capabilities that are equal, or differ in one bit.
    fn aim_equal(&mut self) {
        let mut other = self.first();
        match self.random.below(8) {
            0 => other.address ^= 1 << self.random.below(32),
            1 => other.metadata ^= 1 << self.random.below(32),
            2 => other.tag ^= 1,
            _ => {}
        }
        self.set_second(other);
    }

    /// Two integers close together, or on both sides of a sign or width.
    fn aim_compare(&mut self) {
        if self.random.one_in(2) {
            let value = integer(self.random.number());
            self.set_first(value);
        }
        let near = self.random.near(self.first().address);
        let other = as_second(self.state.capability(self.operands.rs2 as usize));
        self.set_second(Capability {
            address: near,
            ..other
        });
    }

    /// Both at an extreme, or each at one, a small number or anything. Two operands in one register
    /// are the second.
    fn aim_extremes(&mut self) {
        let both = self.random.one_in(2);
        let [first, second] = [0, 1].map(|_| {
            let extreme = self.random.pick(EXTREMES);
            match self.random.below(4) {
                _ if both => extreme,
                0 => extreme,
                1 => self.random.near(0),
                2 => self.random.sized(),
                _ => self.random.word(),
            }
        });
        self.set_first(integer(first));
        self.set_second(integer(second));
    }
}
