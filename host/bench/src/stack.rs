//! How deep a stack went, by the machine's high-water mark (document 02, 6): a store between the base and the
//! mark moves the mark down to it.

use crate::probe;
use crate::sheet::Sheet;
use lent::{State, MSHWM, MSHWMB};

/// The region of a map that is the stack.
const STACK: &str = "stack";

/// A stretch of memory that is used from its end on down.
#[derive(Clone, Copy, PartialEq, Eq, Debug)]
pub struct Stack {
    start: u32,
    size: u32,
}

impl Stack {
    /// A stack by its first address and its bytes.
    pub fn new(start: u32, size: u32) -> Result<Stack, String> {
        match u64::from(start) + u64::from(size) {
            0..=0x1_0000_0000 => Ok(Stack { start, size }),
            _ => Err("the stack ends past 2^32".into()),
        }
    }

    /// The region stack of a map, if it has one.
    pub fn of_map(map: &Sheet) -> Option<Stack> {
        let region = map.regions.iter().find(|region| region.name == STACK)?;
        Stack::new(region.start, region.length).ok()
    }

    fn end(self) -> u64 {
        u64::from(self.start) + u64::from(self.size)
    }

    /// Its first address and the one after its last.
    pub fn range(self) -> (u64, u64) {
        (self.start.into(), self.end())
    }

    /// The mark of a stack that is not used: its end, or the last word if that is 2^32. A store of the last byte of
    /// the address space alone is then not seen.
    fn unused(self) -> u32 {
        u32::try_from(self.end()).unwrap_or(u32::MAX)
    }

    /// Sets the mark at the stack's end and the base at its start.
    pub fn set_mark(self, state: &mut State) {
        for (place, word) in [(MSHWM, self.unused()), (MSHWMB, self.start)] {
            if let Some(here) = state.regs.get_mut(place) {
                *here = word;
            }
        }
    }

    /// The bytes from a mark to the end, if the mark is the stack's: at its end, or a store's in it.
    fn used(self, mark: u32) -> Option<u64> {
        let lowest = probe::marked(self.start, self.unused());
        match mark {
            _ if mark == self.unused() => Some(0),
            _ if mark < lowest || u64::from(mark) > self.end() => None,
            _ => Some((self.end() - u64::from(mark)).min(self.size.into())),
        }
    }
}

/// What the mark says.
#[derive(Clone, Copy, PartialEq, Eq, Debug)]
pub struct Used {
    pub mark: u32,
    pub base: u32,
    /// The bytes from the base to the mark.
    pub left: u64,
    /// The bytes that were used and those of the stack, if its end is known and the mark is its own.
    pub bytes: Option<(u64, u64)>,
    /// Whether the base is the stack's start.
    pub from_start: bool,
}

impl Used {
    /// What a state's mark says of a stack; nothing if mark and base are 0, as where no one sets them.
    pub fn of(state: &State, stack: Option<Stack>) -> Option<Used> {
        let (mark, base) = (state.register(MSHWM), state.register(MSHWMB));
        let bytes = stack.and_then(|stack| Some((stack.used(mark)?, stack.size.into())));
        (mark != 0 || base != 0).then(|| Used {
            mark,
            base,
            left: mark.saturating_sub(base).into(),
            bytes,
            from_start: stack.is_some_and(|stack| stack.start == base),
        })
    }
}

#[cfg(test)]
mod tests {
    use super::*;

    fn used(stack: Option<Stack>, mark: u32, base: u32) -> Option<Used> {
        let mut state = State::new(0, Vec::new());
        state.regs[MSHWM] = mark;
        state.regs[MSHWMB] = base;
        Used::of(&state, stack)
    }

    #[test]
    fn the_bytes_are_those_from_the_mark_to_the_end() {
        let stack = Stack::new(0x2000_0480, 0x380).unwrap();
        let bytes = |mark| used(Some(stack), mark, 0x2000_0480).and_then(|used| used.bytes);
        assert_eq!(bytes(0x2000_0800), Some((0, 896)));
        assert_eq!(bytes(0x2000_07F0), Some((16, 896)));
        assert_eq!(bytes(0x2000_0480), Some((896, 896)));
        // Elsewhere: some other stack's.
        assert_eq!(bytes(0x2000_0470), None);
        assert_eq!(bytes(0x2000_0810), None);
        let left = |mark| used(None, mark, 0x2000_0480).map(|used| (used.left, used.bytes));
        assert_eq!(left(0x2000_0800), Some((896, None)));
        assert_eq!(left(0x2000_0400), Some((0, None)));
        assert_eq!(used(Some(stack), 0, 0), None);
        let from_start = |base| used(Some(stack), 0x2000_0500, base).unwrap().from_start;
        assert_eq!([0x2000_0480, 0x2000_0490].map(from_start), [true, false]);
    }

    #[test]
    fn a_stack_that_is_no_multiple_of_sixteen_is_used_whole() {
        let stack = Stack::new(0x2000_0484, 0x38).unwrap();
        let bytes = |mark| used(Some(stack), mark, 0x2000_0484).and_then(|used| used.bytes);
        assert_eq!(bytes(0x2000_04BC), Some((0, 56)));
        assert_eq!(bytes(0x2000_04B0), Some((12, 56)));
        assert_eq!(bytes(0x2000_0480), Some((56, 56)));
    }

    #[test]
    fn a_stack_at_the_end_of_the_address_space() {
        let stack = Stack::new(0xFFFF_FF00, 0x100).unwrap();
        let mut state = State::new(0, Vec::new());
        stack.set_mark(&mut state);
        assert_eq!(state.regs[MSHWM..=MSHWMB], [u32::MAX, 0xFFFF_FF00]);
        let bytes = |mark| used(Some(stack), mark, 0xFFFF_FF00).and_then(|used| used.bytes);
        assert_eq!(bytes(u32::MAX), Some((0, 256)));
        assert_eq!(bytes(0xFFFF_FFF0), Some((16, 256)));
        assert!(Stack::new(0xFFFF_FF00, 0x101).is_err());
    }
}
