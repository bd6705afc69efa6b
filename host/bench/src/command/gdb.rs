//! `bench gdb`: the start state under a debugger.

use super::refused_state;
use super::run::{self, Halt};
use crate::arguments::{Gdb, Run};
use crate::capability_text::{count, grouped};
use crate::gdb::{serve, Served, Target};
use crate::{complain, file, visible, Status};
use std::io::Write;
use std::net::{Ipv4Addr, TcpListener};

pub fn obey(asked: Gdb) -> Result<Status, String> {
    let (port, anywhere) = (asked.port, asked.listen_anywhere);
    // A run that is not made.
    let asked = Run {
        from: asked.from,
        ..Run::default()
    };
    let board = asked.map.as_deref().map(run::board).transpose()?;
    let map = board.as_ref().map(|board| &board.sheet);
    let bytes = asked.images.iter().map(|path| file::read(path));
    let bytes: Vec<Vec<u8>> = bytes.collect::<Result<_, _>>()?;
    let files: Vec<&[u8]> = bytes.iter().map(Vec::as_slice).collect();
    let labelled = run::labelled(&asked, &files);
    let fits = run::fits(board.as_ref(), &labelled);
    if let Some(image) = fits.iter().find(|image| !image.fits) {
        return run::misfit(&asked, image);
    }
    let ready = match run::ready(&asked, &files, map) {
        Err(Halt::Refused(refusal, state)) => return refused_state(refusal, &state, false),
        Err(Halt::Outside(outside)) => return run::refused_outside(&outside, false),
        Err(Halt::Bad(reason)) => return Err(reason),
        Ok(ready) => ready,
    };
    tell(&run::labels_told(&asked, &labelled, &fits));
    ready.notes.iter().for_each(|note| complain(note));
    hold(
        Target::new(ready.state, ready.names, ready.stack),
        port,
        anywhere,
    )
}

/// Holds a machine for debuggers until one of them ends it.
fn hold(mut target: Target, port: u16, anywhere: bool) -> Result<Status, String> {
    let listener = listener(port, anywhere)?;
    let served = serve(&mut target, listener, &mut tell);
    let retired = count(target.counts.retired, "step");
    let trapped = grouped(target.counts.trapped);
    tell(&format!("{retired} retired, {trapped} trapped.\n"));
    match served {
        Served::Closed => Err("no further debugger can connect".into()),
        Served::Killed if target.counts.trapped > 0 => Ok(Status::Trapped),
        Served::Killed => Ok(Status::Ran),
    }
}

/// Listens where it is asked to, and says where that is.
fn listener(port: u16, anywhere: bool) -> Result<TcpListener, String> {
    let host = match anywhere {
        true => Ipv4Addr::UNSPECIFIED,
        false => Ipv4Addr::LOCALHOST,
    };
    let told = |error: std::io::Error| format!("port {port}: {}", file::why(&error));
    let listener = TcpListener::bind((host, port)).map_err(told)?;
    let place = listener.local_addr().map_err(told)?;
    tell(&format!(
        "Waiting for a debugger: gdb-multiarch -ex 'target remote {place}'\n"
    ));
    Ok(listener)
}

/// Says something at once. Where nobody reads it, the session goes on.
fn tell(text: &str) {
    let mut output = std::io::stdout().lock();
    let _ = output.write_all(visible::said(text).as_bytes());
    let _ = output.flush();
}
