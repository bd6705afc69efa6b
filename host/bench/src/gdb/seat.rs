//! The one seat at the machine: who has it, how long that client has been silent, and who may take it next.

use super::opening::Opening;
use super::packet::{framed, Event, Framer};
use super::server::{send, BROWSER};
use crate::complain;
use std::io::{ErrorKind, Read};
use std::net::{Shutdown, TcpListener, TcpStream};
use std::sync::atomic::{AtomicUsize, Ordering};
use std::sync::mpsc::Sender;
use std::sync::{Arc, Mutex, MutexGuard, PoisonError};
use std::time::{Duration, Instant};

/// How long a client is silent, with the machine at rest, before the next one may take its place.
const SILENCE: Duration = Duration::from_secs(10);
/// How long a client that is sent away is answered, so that it can show why, and how many are at a time.
const FAREWELL: Duration = Duration::from_secs(5);
const MOST_LEAVING: usize = 16;
/// The shortest time that the system waits.
const TICK: Duration = Duration::from_millis(1);
/// How long after a connection that failed the next is waited for.
const RETRY: Duration = Duration::from_millis(100);

/// A client that has the seat.
pub struct Client {
    pub stream: TcpStream,
    pub from: String,
    number: u64,
}

/// Who has the seat: the client's number, its connection, and when something last came or went.
struct Holder {
    number: u64,
    stream: TcpStream,
    heard: Instant,
}

#[derive(Default)]
pub struct Seat {
    holder: Mutex<Option<Holder>>,
    leaving: AtomicUsize,
}

impl Seat {
    fn holder(&self) -> MutexGuard<'_, Option<Holder>> {
        self.holder.lock().unwrap_or_else(PoisonError::into_inner)
    }

    /// Notes that a client is not silent: it sent something, or the machine goes on for it.
    pub fn hear(&self, client: &Client) {
        let mut holder = self.holder();
        let holder = holder.as_mut();
        if let Some(holder) = holder.filter(|holder| holder.number == client.number) {
            holder.heard = Instant::now();
        }
    }

    /// Frees the seat; false if another has it already.
    pub fn leave(&self, client: &Client) -> bool {
        let mut holder = self.holder();
        let own = holder.as_ref();
        let own = own.is_some_and(|holder| holder.number == client.number);
        if own {
            *holder = None;
        }
        own
    }

    /// Gives the seat to a client, or says why it is taken. Who has been silent too long is sent away.
    fn take(&self, client: &Client) -> Result<(), String> {
        let mut holder = self.holder();
        if let Some(holder) = holder.as_ref() {
            let silent = holder.heard.elapsed();
            if silent < SILENCE {
                return Err(format!(
                    "another debugger is connected, silent for {} s; after {} s of silence the next takes its place",
                    silent.as_secs(),
                    SILENCE.as_secs()
                ));
            }
            send_away(&holder.stream);
        }
        let stream = client.stream.try_clone();
        *holder = Some(Holder {
            number: client.number,
            stream: stream.map_err(|error| error.to_string())?,
            heard: Instant::now(),
        });
        Ok(())
    }
}

/// Closes the connection of a silent client, with a packet that it may find there when it asks for something again.
fn send_away(mut stream: &TcpStream) {
    let why = format!(
        "E.silent for {} s, and another debugger has come",
        SILENCE.as_secs()
    );
    let _ = send(&mut stream, &framed(why.as_bytes()));
    let _ = stream.shutdown(Shutdown::Both);
}

/// Takes connections: one goes on to the session, others are told why they do not.
pub fn admit(listener: &TcpListener, seat: &Arc<Seat>, clients: &Sender<Client>) {
    for number in 0.. {
        let (stream, from) = match listener.accept() {
            Ok((stream, from)) => (stream, from.to_string()),
            // Too many open files, or a client that was gone at once: later ones may come through.
            Err(_) => {
                std::thread::sleep(RETRY);
                continue;
            }
        };
        let client = Client {
            stream,
            from,
            number,
        };
        match seat.take(&client) {
            Err(why) => dismiss(seat, client, why),
            Ok(()) if clients.send(client).is_err() => return,
            Ok(()) => {}
        }
    }
}

/// Answers a client for a while, beside all else; where too many are answered it is only let go.
fn dismiss(seat: &Arc<Seat>, client: Client, why: String) {
    if seat.leaving.fetch_add(1, Ordering::SeqCst) >= MOST_LEAVING {
        seat.leaving.fetch_sub(1, Ordering::SeqCst);
        return;
    }
    let seat = seat.clone();
    std::thread::spawn(move || {
        let _ = answer_all(client, &format!("E.{why}"));
        seat.leaving.fetch_sub(1, Ordering::SeqCst);
    });
}

/// Answers every packet of a client with the same words, until it goes or its time is over; then they are said once more.
fn answer_all(mut client: Client, words: &str) -> std::io::Result<()> {
    let until = Instant::now() + FAREWELL;
    let (mut framer, mut opening) = (Framer::default(), Opening::default());
    let (words, mut bytes) = (framed(words.as_bytes()), [0; 1024]);
    while let Some(left) = until.checked_duration_since(Instant::now()) {
        client.stream.set_read_timeout(Some(left.max(TICK)))?;
        let count = match client.stream.read(&mut bytes) {
            Err(error) if error.kind() == ErrorKind::WouldBlock => break,
            Ok(0) => return Ok(()),
            read => read?,
        };
        if opening.is_browser(&bytes[..count]) {
            complain(&format!("{} {BROWSER}", client.from));
            return Ok(());
        }
        let events = bytes[..count].iter().filter_map(|byte| framer.take(*byte));
        let packets = events.filter(|event| matches!(event, Event::Packet(_)));
        let answers = [b"+", &words[..]].concat().repeat(packets.count());
        send(&mut &client.stream, &answers)?;
    }
    send(&mut &client.stream, &words)
}
