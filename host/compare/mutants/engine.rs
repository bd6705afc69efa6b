
// An engine around the second program's machine that keeps the words it has fetched: a right one, to be made wrong by the
// edits of mutants.txt. The comparison of engines must tell each of them from the plain run.

/// How many words are kept, by their addresses.
const SLOTS: usize = 1024;

/// A word that was fetched, and the PCC that it was fetched by.
#[derive(Clone, Copy)]
struct Kept {
    address: u32,
    metadata: u32,
    word: u32,
}

struct Engine<'a> {
    machine: Machine<'a>,
    kept: [Option<Kept>; SLOTS],
    /// How many steps no interrupt is due in.
    quiet: u64,
}

fn slot(address: u32) -> usize {
    address as usize / 2 % SLOTS
}

impl Engine<'_> {
    /// How many steps no interrupt is due in, as long as nothing but time changes.
    fn quiet_steps(&self) -> u64 {
        if !self.machine.interrupts_enabled() {
            return u64::MAX;
        }
        let (time, compare) = (self.machine.long(TIME), self.machine.long(COMPARE));
        compare.saturating_sub(time)
    }

    /// The word that was kept for PCC.
    fn word(&self) -> Option<u32> {
        let pcc = self.machine.capability(PCC);
        let kept = self.kept[slot(pcc.address)]?;
        let same = kept.address == pcc.address;
        let same_metadata = kept.metadata == pcc.metadata;
        (same && same_metadata && pcc.tag == 1).then_some(kept.word)
    }

    /// What a word stores: where, and how many bytes.
    fn store_of(&self, word: u32) -> Option<(u32, u32)> {
        let (cs1, offset, size) = match instruction(word)? {
            Instruction::Store { width: StoreWidth::Byte, cs1, offset, .. } => (cs1, offset, 1),
            Instruction::Store { width: StoreWidth::Half, cs1, offset, .. } => (cs1, offset, 2),
            Instruction::Store { cs1, offset, .. } => (cs1, offset, 4),
            Instruction::Csc { cs1, offset, .. } => (cs1, offset, 8),
            _ => return None,
        };
        Some((self.machine.register(cs1).address.wrapping_add(offset), size))
    }

    /// Forgets the words that a store has a byte in common with.
    fn forget(&mut self, (address, size): (u32, u32)) {
        let first = address & !1;
        let after = first.wrapping_add(size.max(2));
        let mut at = first.wrapping_sub(2);
        while at != after {
            self.kept[slot(at)] = None;
            at = at.wrapping_add(2);
        }
    }

    /// A step by a kept word; time goes on, and no interrupt is asked for.
    fn kept_step(&mut self, word: u32) -> bool {
        let store = self.store_of(word);
        let done = self.machine.execute(word);
        self.machine.set_long(TIME, self.machine.long(TIME).wrapping_add(1));
        self.quiet -= 1;
        match done {
            Ok(next) => self.retired(word, next, store),
            Err(trap) => self.trapped(trap, store),
        }
    }

    fn retired(&mut self, word: u32, next: Capability, store: Option<(u32, u32)>) -> bool {
        self.machine.set_capability(PCC, next);
        if let Some(store) = store {
            self.forget(store);
        }
        if self.changes_status(word) {
            self.quiet = self.quiet_steps();
        }
        true
    }

    /// What a trapped step would have stored changes nothing.
    fn trapped(&mut self, trap: Trap, store: Option<(u32, u32)>) -> bool {
        self.machine.enter_trap(trap);
        self.quiet = self.quiet_steps();
        false
    }

    fn changes_status(&self, word: u32) -> bool {
        use Instruction as I;
        matches!(instruction(word), Some(I::Csr { .. } | I::Cjalr { .. } | I::Mret))
    }

    /// A step of the machine, whose word is kept if it retires.
    fn plain_step(&mut self) -> bool {
        let pcc = self.machine.capability(PCC);
        let word = self.machine.fetch().ok();
        let store = word.and_then(|word| self.store_of(word));
        let retired = self.machine.step();
        self.quiet = self.quiet_steps();
        if let (true, Some(word)) = (retired, word) {
            let (address, metadata) = (pcc.address, pcc.metadata);
            self.kept[slot(address)] = Some(Kept { address, metadata, word });
            if let Some(store) = store {
                self.forget(store);
            }
        }
        retired
    }

    fn turn(&mut self) -> bool {
        match self.word() {
            Some(word) if self.quiet > 0 => self.kept_step(word),
            _ => self.plain_step(),
        }
    }
}

/// A run with a watch record by the engine; what the plain run refuses is refused by it.
pub fn run_kept(
    regs: &mut [u32],
    board: Board,
    mem: &mut [u8],
    tags: &mut [u8],
    revoked: &[u8],
    steps: u32,
    watch: &mut Watch,
) -> u64 {
    let asked = if steps > MOST_STEPS { steps } else { 0 };
    let refusal = run_watched(regs, board, mem, tags, revoked, asked, watch);
    if refusal != 0 {
        return refusal;
    }
    let Ok(mut machine) = Machine::lent(regs, board, mem, tags, revoked) else {
        return refusal;
    };
    machine.watch = *watch;
    let mut engine = Engine { machine, kept: [None; SLOTS], quiet: 0 };
    let mut retired = 0;
    for _ in 0..steps {
        retired += u32::from(engine.turn());
    }
    *watch = engine.machine.watch;
    answer(0, steps - retired, retired)
}
