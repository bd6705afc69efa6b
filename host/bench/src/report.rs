//! What a run or a saved state comes to, for a person: counts, the trap, the registers.

use crate::account::Account;
use crate::capability_text::{count, grouped, is_integer, length, region};
use crate::capability_text::{revocation_words, rights, type_words};
use crate::console::Said;
use crate::drive::{End, Outcome, Refused, Swept};
use crate::edition;
use crate::memory_rows::{rows, Row, ROW};
use crate::names::Names;
use crate::probe;
use crate::proved::{bounds, digits, instruction, Counts, Refusal, UNSOUND};
use crate::stack::{Stack, Used};
use crate::sweep::{self, Went};
use crate::trap::{Action, Asked, Authority, Trap};
use lent::{place_name, Capability, Range, State, CAPABILITIES, GRANULE, MOST_MEMORY};
use lent::{COMPARE, MCAUSE, MSHWM, MSHWMB, MSTATUS, MTVAL, PCC, REPORT_EDITION, TIME};
use std::fmt::Write;

/// The refusal of memory or a window outside the limits.
const LIMITS: Refusal = Refusal(2);

/// What is lent of memory and of its window; of more memory than there can be, only that.
fn lent_memory(state: &State) -> String {
    let (bytes, window) = (state.mem.len(), state.window);
    let size = match bytes > MOST_MEMORY {
        true => format!("more than {}", count(MOST_MEMORY as u64, "byte")),
        false => count(bytes as u64, "byte"),
    };
    let (start, part) = (state.start, count(window.size.into(), "byte"));
    let from = window.start;
    format!("Here memory is {size} from {start:08x} on, and the window {part} from byte {from} of it on")
}

/// That the machine refused a state, with document 01's number; for an unsound one also by which registers, with their bounds, and
/// for one outside the limits what was lent.
pub fn refused(refusal: Refusal, state: &State) -> String {
    let said = format!("refused, number {}: {}", refusal.0, refusal.reason());
    if refusal == LIMITS {
        return format!("{said}. {}", lent_memory(state));
    }
    if refusal != UNSOUND {
        return said;
    }
    let shown = |place: usize| {
        let bounds = bounds(state.capability(place));
        format!("{} {}", place_name(place), region(bounds))
    };
    let shown: Vec<String> = probe::unsound(state).into_iter().map(shown).collect();
    format!("{said}: {}", shown.join(", "))
}

/// That the machine refused to go on with a run, after which steps.
pub fn refused_on_the_way(refused: Refused, state: &State) -> String {
    let said = self::refused(refused.refusal, state);
    let Counts { retired, trapped } = refused.made;
    match refused.made.steps() {
        0 => said,
        _ => {
            let (retired, trapped) = (count(retired, "step"), grouped(trapped));
            format!("{said}; before that {retired} retired, {trapped} trapped")
        }
    }
}

/// A run: its counts, how deep the stack went, the watched ranges, the sweeps, the trap, the registers.
pub fn run(account: &Account) -> String {
    let Account { state, outcome, .. } = account;
    let mut text = counts(state, outcome);
    text.push_str(&stack(state, account.stack));
    text.push_str(&watch(&account.judged.watched));
    if account.swept {
        text.push_str(&sweeps(outcome.swept));
    }
    text.push_str(&judged(account));
    if let Some(trap) = &account.trap {
        text.push('\n');
        text.push_str(&self::trap(trap, state, account.names));
    }
    format!("{text}\n{}", registers(state))
}

/// What is said of a run that a signal stopped.
const UNJUDGED: &str = "The run is not judged: a signal came before.\n";

/// What a run was judged by besides: the map, what was expected, what it said.
pub fn judged(account: &Account) -> String {
    let judged = account.judged;
    let map = match &judged.map {
        Some(map) => map.text(account.names),
        None if judged.stopped => UNJUDGED.into(),
        None if judged.map_off => "Map: stores were not judged (--map-stores off).\n".into(),
        None => String::new(),
    };
    let console = judged.console.as_ref();
    let console = console.map_or(String::new(), Said::line);
    format!("{map}{}{console}", judged.values())
}

/// The counts of a run, and how it ended.
pub fn counts(state: &State, outcome: &Outcome) -> String {
    let retired = count(outcome.counts.retired, "step");
    let trapped = grouped(outcome.counts.trapped);
    let at = state.capability(PCC).address;
    let end = match outcome.end {
        End::Steps => format!("All steps asked for were made; the next is at {at:08x}."),
        End::Still => format!("The program ended: it jumps to itself at {at:08x}."),
        End::Waits(_) | End::Unhandled | End::Astray => sentence(&unended(state, outcome)),
        End::Trap(_) => "Stopped at the trap.".into(),
        End::Break => format!("Stopped before the step at {at:08x}."),
        End::Exit => format!("The program ended: it came to {at:08x}."),
        End::Stuck(1) => format!("Nothing handles the trap: every further step traps, at {at:08x}."),
        End::Stuck(steps) => format!("Nothing handles the trap: {steps} steps from {at:08x} on come again for ever, with it among them."),
        End::Stopped => format!("A signal stopped the run; the next step is at {at:08x}."),
    };
    format!("{retired} retired, {trapped} trapped. {end}\n")
}

/// How a program jumps to itself that has not ended by that; nothing of other ends.
pub fn unended(state: &State, outcome: &Outcome) -> String {
    let at = state.capability(PCC).address;
    match outcome.end {
        End::Unhandled => {
            format!("nothing handles the trap: the handler jumps to itself at {at:08x}")
        }
        End::Astray => {
            format!("the program has not come to its end: it jumps to itself at {at:08x}")
        }
        End::Waits(steps) => {
            let steps = count(steps, "step");
            format!(
                "the program waits: it jumps to itself at {at:08x}, and the timer would interrupt it in {steps}, \
                 which is more than were left"
            )
        }
        _ => String::new(),
    }
}

/// Words as a sentence.
fn sentence(words: &str) -> String {
    let (first, rest) = words.split_at(words.len().min(1));
    format!("{}{rest}.", first.to_uppercase())
}

/// How deep the stack went; nothing where no mark was set.
pub fn stack(state: &State, stack: Option<Stack>) -> String {
    let Some(used) = Used::of(state, stack) else {
        return String::new();
    };
    let Used { mark, base, .. } = used;
    let above = match used.from_start && used.bytes.is_some() {
        true => String::new(),
        false => format!(", {} above its base {base:08x}", count(used.left, "byte")),
    };
    match used.bytes {
        Some((0, size)) => format!("Stack: none of {} used{above}.\n", count(size, "byte")),
        Some((bytes, size)) => {
            let (bytes, size) = (grouped(bytes), count(size, "byte"));
            format!("Stack: {bytes} of {size} used, down to {mark:08x}{above}.\n")
        }
        None => format!("Stack: used down to {mark:08x}{above}.\n"),
    }
}

/// The watched ranges, and how many stores touched each.
pub fn watch(ranges: &[Range]) -> String {
    ranges.iter().map(watched).collect()
}

fn watched(range: &Range) -> String {
    let (start, bytes) = (range.start, count(range.length.into(), "byte"));
    let stores = count(range.count.into(), "store");
    let more = match range.count {
        u32::MAX => " or more",
        _ => "",
    };
    format!("Watch: {bytes} from {start:08x}, touched by {stores}{more}.\n")
}

/// The sweeps of a run.
pub fn sweeps(swept: Swept) -> String {
    let (passes, tags) = (count(swept.passes, "time"), count(swept.tags, "tag"));
    format!("Memory was swept {passes}; {tags} went.\n")
}

/// The most tags that are shown one by one.
const SHOWN: usize = 64;

/// A pass of the sweeper: how many granules, the tags that went, and how many stay.
pub fn swept(state: &State, went: &[Went], names: &Names) -> String {
    let visited = count(sweep::granules(state), "granule");
    let gone = count(went.len() as u64, "tag");
    let stay = grouped(sweep::tags(state));
    let mut text =
        format!("{visited} visited; {gone} went, {stay} stay. Registers are not swept.\n");
    if !went.is_empty() {
        text.push_str(
            "\n  granule  address   held      bounds                 rights                type\n",
        );
    }
    for one in went.iter().take(SHOWN) {
        text.push_str(&went_line(one, names));
    }
    if let Some(more) = went.len().checked_sub(SHOWN).filter(|&more| more > 0) {
        let more = grouped(more as u64);
        let _ = writeln!(text, "  and {more} more; --json has them all");
    }
    text
}

/// One of them: where it stood, the capability, and the named stretch that its low bound lies in.
fn went_line(went: &Went, names: &Names) -> String {
    let Went {
        granule,
        address,
        value,
    } = went;
    let bounds = bounds(*value);
    let (low_high, held) = (region(bounds), rights(value.metadata).join(" "));
    let (kind, place) = (type_words(value.metadata), names.place(bounds.low));
    let start = format!("  {granule:>7}  {address:08x}  {:08x}", value.address);
    format!("{start}  {low_high:<22} {held:<21} {kind}{place}\n")
}

/// A trap: where, the word, its instruction, the cause, what was asked beside its bounds, and what lies there.
pub fn trap(trap: &Trap, state: &State, names: &Names) -> String {
    let memory = trap.asked.map(|asked| memory_there(asked, state));
    trap_alone(trap, state, names) + &memory.unwrap_or_default()
}

/// The same without what lies there.
pub fn trap_alone(trap: &Trap, state: &State, names: &Names) -> String {
    let mut text = String::new();
    if trap.gone_on {
        let _ = writeln!(text, "{GONE_ON}");
    }
    let _ = writeln!(text, "Trap: {}.\n", trap.cause);
    for (name, said) in trap_rows(trap, state, names) {
        let _ = writeln!(text, "  {name:<8} {said}");
    }
    text
}

/// What is said where a trap is not the last thing that happened.
pub const GONE_ON: &str =
    "The program has gone on since its last trap, and may have written registers since.";

/// The lines of a trap, each with its name.
pub fn trap_rows(trap: &Trap, state: &State, names: &Names) -> Vec<(String, String)> {
    let place = names.place(trap.pcc.address);
    let unfetched = match (trap.is_interrupt(), trap.action) {
        (true, _) => "before the word there",
        (_, Action::Fetch) => "not fetched",
        _ => "a word that is not known",
    };
    let word = trap.word.map_or(unfetched.into(), word_shown);
    let at = format!("{:08x}, {word}{place}", trap.pcc.address);
    let mut rows = vec![("at".into(), at)];
    if let Some(asked) = trap.asked {
        rows.push(("asked".into(), asked_shown(asked, trap, names)));
    }
    if let Some(authority) = &trap.authority {
        rows.extend(authority_rows(authority, trap.asked));
    }
    if trap.is_interrupt() {
        let (time, compare) = (state.long(TIME), state.long(COMPARE));
        let said = format!("compare {compare}, time now {time}");
        rows.push(("timer".into(), said));
    }
    let machine = format!("mcause {}, mtval {:08x}", trap.mcause_shown(), trap.mtval);
    rows.push(("machine".into(), machine));
    rows
}

/// A word and its instruction. An illegal word is listed as its digits, which are not said twice.
fn word_shown(word: u32) -> String {
    let (digits, instruction) = (digits(word), instruction(word));
    if instruction == digits {
        return format!("word {digits}");
    }
    format!("word {digits}, {instruction}")
}

fn asked_shown(asked: Asked, trap: &Trap, names: &Names) -> String {
    let end = asked.end();
    let size = count(asked.size.into(), "byte");
    let what = match trap.action {
        Action::Jump => "target of the jump".into(),
        action => format!("{} of {size}", action.noun()),
    };
    let place = names.place(asked.address);
    format!("[{:08x}, {end:08x}), {what}{place}", asked.address)
}

/// The bounds of the authority beside the request, if there is one, and the rest of the authority.
fn authority_rows(authority: &Authority, asked: Option<Asked>) -> Vec<(String, String)> {
    let Authority {
        name,
        value,
        bounds,
        revocation,
    } = authority;
    let (low_high, long) = (region(*bounds), length(*bounds));
    let mut rows = Vec::new();
    if let Some(asked) = asked {
        let side = distance(authority, asked);
        let said = format!("{low_high}, {long} of {name}; the request {side}");
        rows.push(("bounds".into(), said));
    }
    let tag = if value.tag == 1 { "tagged" } else { "no tag" };
    let held = rights(value.metadata).join(" ");
    let held = if held.is_empty() {
        "no rights".into()
    } else {
        held
    };
    let kind = type_words(value.metadata);
    let said = format!("{:08x}, {tag}, {held}, {kind}", value.address);
    rows.push((name.clone(), said));
    if let Some(said) = revocation {
        let words = revocation_words(*said);
        let said = format!("{:08x}, its low bound, is {words}", bounds.low);
        rows.push(("revoked".into(), said));
    }
    rows
}

/// On which side of the bounds the request lies.
fn distance(authority: &Authority, asked: Asked) -> String {
    let (address, bounds) = (u64::from(asked.address), authority.bounds);
    let (low, end) = (u64::from(bounds.low), asked.end());
    if address < low {
        format!("starts {} below them", count(low - address, "byte"))
    } else if end > bounds.high {
        format!("ends {} past them", count(end - bounds.high, "byte"))
    } else {
        "is inside them".into()
    }
}

/// The memory around a request, with a mark below each byte asked for.
pub fn memory_there(asked: Asked, state: &State) -> String {
    let rows = rows(asked, state);
    let mut text = String::from("\n  memory there\n");
    if rows.is_empty() {
        let (start, end) = (state.start, state.end());
        let _ = writeln!(text, "  none: memory is [{start:08x}, {end:08x})");
    }
    for row in &rows {
        text.push_str(&memory_line(row));
        text.push_str(&marks(row.address, asked));
    }
    text
}

/// One line of memory: bytes, then the letters they are; a star stands before a tagged granule.
fn memory_line(row: &Row) -> String {
    let mut text = format!("  {:08x} ", row.address);
    let mut letters = String::new();
    for (place, byte) in row.bytes.iter().enumerate() {
        let tagged = place.is_multiple_of(GRANULE) && row.tags[place / GRANULE];
        text.push(if tagged { '*' } else { ' ' });
        match byte {
            Some(byte) => {
                let _ = write!(text, "{byte:02x}");
                let shown = byte.is_ascii_graphic() || *byte == b' ';
                letters.push(if shown { char::from(*byte) } else { '.' });
            }
            None => {
                text.push_str("--");
                letters.push(' ');
            }
        }
    }
    format!("{}\n", format!("{text}  {letters}").trim_end())
}

fn marks(row: u64, asked: Asked) -> String {
    let marked = |address| address >= u64::from(asked.address) && address < asked.end();
    let places = row..row + ROW as u64;
    let marks = places.map(|address| if marked(address) { " ^^" } else { "   " });
    let line: String = marks.collect();
    match line.trim_end() {
        "" => String::new(),
        marks => format!("           {marks}\n"),
    }
}

/// The registers as one table.
pub fn registers(state: &State) -> String {
    let mut text = String::from(
        "  register   address   tag  bounds                 rights                type\n",
    );
    for place in 0..CAPABILITIES {
        let (name, value) = (place_name(place), state.capability(place));
        let (address, tag, held) = (value.address, value.tag, contents(value));
        let start = format!("  {name:<10} {address:08x}  {tag}    ");
        let _ = match held {
            Held::Integer(number) => writeln!(text, "{start}integer {number}"),
            Held::Capability([bounds, rights, kind]) => {
                writeln!(text, "{start}{bounds:<22} {rights:<21} {kind}")
            }
        };
    }
    let control = control_lines(state).into_iter();
    text.extend(control.map(|line| format!("  {line}\n")));
    text
}

/// What a register holds, in words.
pub enum Held {
    Integer(i32),
    /// Bounds, rights and type.
    Capability([String; 3]),
}

pub fn contents(value: Capability) -> Held {
    if is_integer(value) {
        return Held::Integer(value.address as i32);
    }
    let held = rights(value.metadata).join(" ");
    Held::Capability([region(bounds(value)), held, type_words(value.metadata)])
}

/// The words of the register file that are no capabilities.
pub fn control_lines(state: &State) -> Vec<String> {
    let (status, cause) = (state.register(MSTATUS), state.register(MCAUSE));
    let value = state.register(MTVAL);
    let (mark, base) = (state.register(MSHWM), state.register(MSHWMB));
    let (time, compare) = (state.long(TIME), state.long(COMPARE));
    let mut lines = vec![
        format!("mstatus {status:08x}, mcause {cause:08x}, mtval {value:08x}"),
        format!("mshwm {mark:08x}, mshwmb {base:08x}, time {time}, compare {compare}"),
    ];
    if state.edition != REPORT_EDITION {
        lines.push(format!("edition {}", edition::name(state.edition)));
    }
    lines
}

#[cfg(test)]
mod tests {
    use super::*;

    #[test]
    fn memory_is_shown_as_far_as_it_reaches() {
        let mut state = State::new(0x2000_0008, vec![b'a'; 64]);
        state.set_tag(0x2000_0008, true);
        let asked = Asked {
            address: 0x2000_000C,
            size: 4,
        };
        let shown = "
  memory there
  20000000  -- -- -- -- -- -- -- --*61 61 61 61 61 61 61 61          aaaaaaaa
                                                ^^ ^^ ^^ ^^
  20000010  61 61 61 61 61 61 61 61 61 61 61 61 61 61 61 61  aaaaaaaaaaaaaaaa
";
        assert_eq!(memory_there(asked, &state), shown);
        let outside = Asked {
            address: 0x2000_0048,
            ..asked
        };
        let none = "\n  memory there\n  none: memory is [20000008, 20000048)\n";
        assert_eq!(memory_there(outside, &state), none);
    }
}
