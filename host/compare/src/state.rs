//! One call on lent state, and the second program's capabilities in it.

use lent::{Run, RunWatched, State, Step, Watch};
use second::Capability;

/// The function that is called.
#[derive(Clone, Copy, PartialEq, Eq, Debug, Default)]
pub enum Call {
    #[default]
    Step,
    Run(u32),
}

impl Call {
    /// Makes the call on the machine of a step and a run.
    pub fn on(self, state: &mut State, step: Step, run: Run) -> u64 {
        match self {
            Call::Step => state.step(step),
            Call::Run(steps) => state.run(run, steps),
        }
    }

    /// Makes the call on an engine that watches, with nothing to watch; a step is a run of one.
    pub fn by(self, state: &mut State, run: RunWatched) -> u64 {
        state.run_watched(run, self.steps(), &mut Watch::default())
    }

    /// How many steps it asks for.
    pub fn steps(self) -> u32 {
        match self {
            Call::Step => 1,
            Call::Run(steps) => steps,
        }
    }
}

/// One case: a state and a call on it.
#[derive(Clone, PartialEq, Eq, Debug, Default)]
pub struct Case {
    pub state: State,
    pub call: Call,
}

/// A capability of the second program, as it is lent.
pub fn lend(value: Capability) -> lent::Capability {
    lent::Capability {
        address: value.address,
        metadata: value.metadata,
        tag: value.tag,
    }
}

/// A lent capability, as the second program has it.
pub fn as_second(value: lent::Capability) -> Capability {
    Capability {
        address: value.address,
        metadata: value.metadata,
        tag: value.tag,
    }
}
