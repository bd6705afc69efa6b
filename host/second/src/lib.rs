//! The second bench machine and map sheets: plain Rust, written from documents 01 and 02, the CHERIoT
//! report and the RISC-V standard alone, so that comparing it in bulk with the proved program means
//! something. Of the other packages it takes only the names of what is lent as numbers.
//!
//! Every public function is total: slices of any length, any words, no panic.

#![forbid(unsafe_code)]

pub mod calls;
pub mod capability;
pub mod compressed;
pub mod decode;
pub mod encoding;
pub mod fit;
pub mod listing;
pub mod machine;
pub mod reach;
pub mod sheet;
pub mod sweep;
pub mod text;

pub use calls::calls;
pub use capability::{bounds, cut, Capability, Cut};
pub use listing::{assemble, list};
pub use machine::{run, run_watched, step};
pub use reach::{reach, reach_outside};
pub use sweep::sweep;
pub use text::cutting_program;

#[cfg(test)]
mod assemble;
#[cfg(test)]
mod sample;
