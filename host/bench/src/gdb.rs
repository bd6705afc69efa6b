//! The GDB remote protocol over a machine: packets, registers, what a client asks, and the connection.

mod description;
mod monitor;
mod opening;
mod packet;
mod query;
mod registers;
mod resume;
mod seat;
mod server;
mod session;
mod stop;
mod target;
#[cfg(test)]
mod tests;

pub use server::{serve, Served};
pub use target::Target;
