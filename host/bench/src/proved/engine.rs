//! The two proved engines, of which one makes all runs of a command. They give the same answers (document 02, 14), so that
//! nothing that is shown, saved or told tells which it was.

use lent::RunWatched;
use std::sync::atomic::{AtomicBool, Ordering};

/// An engine that can be asked for.
#[derive(Clone, Copy, PartialEq, Eq, Debug, Default, clap::ValueEnum)]
pub enum Engine {
    /// Decodes each instruction anew
    Plain,
    /// Keeps decoded code until a store touches it
    #[default]
    Quick,
}

impl Engine {
    /// Its run.
    pub fn run(self) -> RunWatched {
        match self {
            Engine::Plain => ::proved::run_watched,
            Engine::Quick => ::proved::run_quick,
        }
    }
}

/// Whether runs are made by the plain engine.
static IS_PLAIN: AtomicBool = AtomicBool::new(false);

/// Chooses the engine of all runs from here on.
pub fn choose(engine: Engine) {
    IS_PLAIN.store(engine == Engine::Plain, Ordering::Relaxed);
}

/// The engine that makes the runs.
pub fn chosen() -> Engine {
    match IS_PLAIN.load(Ordering::Relaxed) {
        true => Engine::Plain,
        false => Engine::Quick,
    }
}

#[cfg(test)]
mod tests {
    use super::*;

    #[test]
    fn the_quick_engine_makes_the_runs_unless_the_plain_one_is_chosen() {
        assert_eq!(chosen(), Engine::default());
        for engine in [Engine::Plain, Engine::Quick] {
            choose(engine);
            assert_eq!(chosen(), engine);
        }
    }
}
