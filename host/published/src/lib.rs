//! What others published, held against the bench: the routines of GCC's library for RV32E, without
//! and with M, qemu's execution of each integer instruction, and the decoding of the binutils
//! disassembler; and capability programs of our own, with the ends that the papers give them.
//!
//! Each part takes the proved machine, or the lister, as an argument, runs it beside the second program, and
//! answers with its counts or with the first difference.

#![forbid(unsafe_code)]

pub mod arguments;
pub mod bench;
pub mod decoding;
pub mod disassembler;
pub mod halves;
pub mod image;
pub mod instructions;
pub mod listing;
pub mod programs;
pub mod qemu;
pub mod routines;
pub mod script;
pub mod tools;
