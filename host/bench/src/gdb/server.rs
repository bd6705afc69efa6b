//! The connection: one client at a time over TCP (src/gdb/seat.rs). A client that goes away, or one that comes second, leaves
//! the machine as it is.

use super::opening::Opening;
use super::seat::{admit, Client, Seat};
use super::session::{Ended, Session};
use super::target::Target;
use crate::complain;
use std::io::{ErrorKind, Read, Write};
use std::net::{TcpListener, TcpStream};
use std::sync::mpsc::channel;
use std::sync::Arc;
use std::time::{Duration, Instant};

/// How long a client may leave its answers unread.
const PATIENCE: Duration = Duration::from_secs(5);
/// The most bytes that are taken before the answers to them are sent, so that none pile up.
const TAKEN: usize = 4096;

/// How serving ended.
#[derive(Clone, Copy, PartialEq, Eq, Debug)]
pub enum Served {
    /// A client has ended the machine.
    Killed,
    /// Nobody can connect any more.
    Closed,
}

/// What is said of a client that is none.
pub const BROWSER: &str =
    "speaks as a browser does, and a debugger is waited for here: it is sent away";

/// Serves clients, one after the other, until one of them ends the machine; `say` says what happens.
pub fn serve(target: &mut Target, listener: TcpListener, say: &mut dyn FnMut(&str)) -> Served {
    let seat = Arc::new(Seat::default());
    let (clients, queue) = channel();
    let taken = seat.clone();
    std::thread::spawn(move || admit(&listener, &taken, &clients));
    for mut client in queue {
        let from = client.from.clone();
        say(&format!("{from} is connected.\n"));
        let ended = attend(target, &mut client, &seat, say);
        target.leave();
        let _ = client.stream.shutdown(std::net::Shutdown::Both);
        let stayed = seat.leave(&client);
        match ended {
            Ok(Ended::Killed) => {
                say(&format!("{from} has ended the machine.\n"));
                return Served::Killed;
            }
            Ok(Ended::Detached) => say(&format!("{from} has left; the machine stays.\n")),
            Err(_) if !stayed => say(&format!(
                "{from} was silent, and another has come; the machine stays where it is.\n"
            )),
            Err(reason) => say(&format!(
                "{from} is gone, {reason}; the machine stays where it is.\n"
            )),
        }
    }
    Served::Closed
}

/// One client's session, or why its connection ended.
fn attend(
    target: &mut Target,
    client: &mut Client,
    seat: &Seat,
    say: &mut dyn FnMut(&str),
) -> Result<Ended, String> {
    let told = |error: std::io::Error| error.to_string();
    client.stream.set_nodelay(true).map_err(told)?;
    let mut session = Session::new(target);
    let (mut bytes, mut opening) = ([0; TAKEN], Opening::default());
    loop {
        let count = received(&mut client.stream, session.is_going(), &mut bytes).map_err(told)?;
        if opening.is_browser(&bytes[..count]) {
            complain(&format!("{} {BROWSER}", client.from));
            return Err("it was a browser".into());
        }
        session.receive(&bytes[..count]);
        session.work();
        session.notes.drain(..).for_each(|note| say(&note));
        send(&mut &client.stream, &session.take_output()).map_err(told)?;
        seat.hear(client);
        if let Some(ended) = session.ended {
            return Ok(ended);
        }
    }
}

/// Sends all of it, or gives up if the client has not taken it in time.
pub fn send(client: &mut &TcpStream, mut bytes: &[u8]) -> std::io::Result<()> {
    let until = Instant::now() + PATIENCE;
    let late = || std::io::Error::new(ErrorKind::TimedOut, "its answers were not read");
    while !bytes.is_empty() {
        let left = until.saturating_duration_since(Instant::now());
        if left.is_zero() {
            return Err(late());
        }
        client.set_write_timeout(Some(left))?;
        match client.write(bytes) {
            Err(error) if error.kind() == ErrorKind::WouldBlock => return Err(late()),
            Err(error) if error.kind() == ErrorKind::Interrupted => {}
            Err(error) => return Err(error),
            Ok(sent) => bytes = &bytes[sent..],
        }
    }
    Ok(())
}

/// Bytes from the client; none, without waiting for some, if the machine is going.
fn received(client: &mut TcpStream, going: bool, bytes: &mut [u8]) -> std::io::Result<usize> {
    client.set_nonblocking(going)?;
    let read = client.read(bytes);
    client.set_nonblocking(false)?;
    match read {
        Ok(0) => Err(ErrorKind::ConnectionAborted.into()),
        Err(error) if error.kind() == ErrorKind::WouldBlock => Ok(0),
        Err(error) if error.kind() == ErrorKind::Interrupted => Ok(0),
        read => read,
    }
}
