//! SIGINT, SIGTERM and SIGHUP. A command that heeds them looks on its way whether it is asked to stop, and then ends with
//! what it has; any other is ended, and so is one that is asked twice. No file that was being made is left.

use crate::{process, save};
use signal_hook::consts::{SIGHUP, SIGINT, SIGTERM, SIGXFSZ};
use signal_hook::flag;
use signal_hook::iterator::Signals;
use signal_hook::low_level::{emulate_default_handler, signal_name};
use std::sync::atomic::{AtomicBool, AtomicI32, Ordering};
use std::sync::mpsc::channel;
use std::sync::{Arc, Once};
use std::thread;

/// Stands for no signal.
const NONE: i32 = 0;
/// The status that a shell gives to a command that a signal ended, less the signal's number.
const BY_SIGNAL: i32 = 128;

/// The first signal that came.
static FIRST: AtomicI32 = AtomicI32::new(NONE);
/// Whether the command looks for it.
static HEEDED: AtomicBool = AtomicBool::new(false);

/// Listens to signals from here on, as every command does that makes a file or heeds them. Where that cannot be, and in any
/// other command, they end it as they end any: a thread more would cost a short command more time than all it does.
pub fn listen() {
    static ONCE: Once = Once::new();
    ONCE.call_once(start);
}

fn start() {
    // By itself it would end the command in the middle of a file; taken, it lets the write fail and be told.
    let _ = flag::register(SIGXFSZ, Arc::default());
    let hangup = (!is_ignored(SIGHUP)).then_some(SIGHUP);
    let (ready, is_ready) = channel();
    let listener = move || {
        let signals = Signals::new([SIGINT, SIGTERM].into_iter().chain(hangup));
        let _ = ready.send(());
        if let Ok(mut signals) = signals {
            signals.forever().for_each(take);
        }
    };
    // A signal is only taken once there is a thread that answers it.
    if thread::Builder::new().spawn(listener).is_ok() {
        let _ = is_ready.recv();
    }
}

/// Whether whoever started the command has it ignore a signal, as nohup does.
fn is_ignored(signal: i32) -> bool {
    process::number("SigIgn:", 16).is_some_and(|ignored| ignored >> (signal - 1) & 1 == 1)
}

fn take(signal: i32) {
    let first = FIRST.compare_exchange(NONE, signal, Ordering::SeqCst, Ordering::SeqCst);
    if first.is_err() || !HEEDED.load(Ordering::SeqCst) {
        end_by(signal);
    }
}

/// The command looks from here on whether it is asked to stop.
pub fn heed() {
    listen();
    HEEDED.store(true, Ordering::SeqCst);
}

pub fn is_asked() -> bool {
    FIRST.load(Ordering::Relaxed) != NONE
}

/// The name of the signal that asked.
pub fn name() -> &'static str {
    signal_name(FIRST.load(Ordering::SeqCst)).unwrap_or("a signal")
}

/// Ends the command by the signal that asked it to stop, so that whoever started it sees which.
pub fn end() -> ! {
    end_by(FIRST.load(Ordering::SeqCst))
}

fn end_by(signal: i32) -> ! {
    save::clear();
    let _ = emulate_default_handler(signal);
    std::process::exit(BY_SIGNAL + signal)
}
