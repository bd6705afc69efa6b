//! Expectations come from the papers; each test names its sentence.

mod bench;
mod capabilities;
mod compressed;
mod control;
mod editions;
mod integers;
mod mark;
mod memory;
mod refusals;
mod timer;
mod traps;
mod watch;
