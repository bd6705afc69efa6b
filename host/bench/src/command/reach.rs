//! `bench reach`: a run to the handover, then what any run from there may do to each region of the board.

use super::look::even_place;
use super::run::{with_files, Halt, Ready, Task};
use super::{say, say_json};
use crate::arguments::{Reach as Asked, Run, Terms};
use crate::reach::{page, rows, text, value, Account, Never};
use crate::{complain, handover, json, report, Status};
use lent::PCC;
use serde_json::Value;

pub fn obey(asked: Asked) -> Result<Status, String> {
    let run = Run {
        from: asked.from,
        terms: Terms {
            steps: asked.steps,
            ..Terms::default()
        },
        json: asked.json,
        report: asked.report,
        ..Run::default()
    };
    with_files(&run, |task, _| {
        judge(task, asked.at.as_deref(), &asked.never)
    })
}

fn judge(task: &Task, at: Option<&str>, nevers: &[Never]) -> Result<Status, String> {
    let board = task.board.ok_or("--map is missing")?;
    nevers
        .iter()
        .try_for_each(|never| never.check(&board.sheet))?;
    let mut ready = match task.ready() {
        Err(Halt::Outside(outside)) => return task.outside(&outside),
        Err(Halt::Refused(refusal, state)) => {
            refused_as_json(task, || json::refused_state(refusal, &state))?;
            return Err(report::refused(refusal, &state));
        }
        Err(halt) => return Err(halt.said()),
        Ok(ready) => ready,
    };
    ready.notes.iter().for_each(|note| complain(note));
    let at = at.map(|place| even_place("--at", place, &ready));
    let at = at.transpose()?;
    let steps = at.map(|at| handover::arrive(&mut ready.state, at, task.asked.terms.steps));
    let steps = match steps.transpose() {
        Ok(steps) => steps,
        Err(reason) => {
            refused_as_json(task, || json::not_reached(&reason))?;
            return Err(reason);
        }
    };
    let state = &ready.state;
    let rows = match rows(state, &board.sheet) {
        Ok(rows) => rows,
        Err(refusal) => {
            refused_as_json(task, || json::refused_state(refusal, state))?;
            return Err(report::refused(refusal, state));
        }
    };
    let account = Account {
        at: state.capability(PCC).address,
        steps,
        rows: &rows,
        nevers,
    };
    conclude(task, &ready, &account)
}

/// Why there is no answer, where it is a program that asks.
fn refused_as_json(task: &Task, value: impl FnOnce() -> Value) -> Result<(), String> {
    match task.asked.json {
        true => say_json(&value()),
        false => Ok(()),
    }
}

/// Says the answer, and writes its page. What cannot be said has its page nevertheless.
fn conclude(task: &Task, ready: &Ready, account: &Account) -> Result<Status, String> {
    let said = match task.asked.json {
        true => {
            let mut value = value::account(account);
            value["notes"] = ready.notes.clone().into();
            say_json(&value)
        }
        false => say(&text::told(account)),
    };
    task.write_page(|| page::of(&task.subject(Some(ready))?, account))?;
    said.map(|()| match account.holds() {
        true => Status::Ran,
        false => Status::Could,
    })
}
