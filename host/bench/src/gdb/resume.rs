//! The packets that let the machine go on: c, C, s, S and vCont.

use super::packet::{number, split};
use super::target::Go;

/// How to go on, and from which address if one is given.
pub type Asked = (Go, Option<u32>);

/// c, C, s and S with what follows the letter.
pub fn plain(letter: u8, rest: &[u8]) -> Option<Asked> {
    let go = match letter {
        b'c' | b'C' => Go::On,
        _ => Go::Step,
    };
    let from = match letter {
        b'c' | b's' => rest,
        _ => match split(rest, b';') {
            Some((signal, from)) => signal_number(signal).map(|()| from)?,
            None => signal_number(rest).map(|()| &b""[..])?,
        },
    };
    match from {
        [] => Some((go, None)),
        from => Some((go, Some(address(from)?))),
    }
}

/// The actions of vCont, parted by semicolons: the first that is for thread 1 or for all.
pub fn by_thread(actions: &[u8]) -> Option<Go> {
    let mut actions = actions.split(|byte| *byte == b';');
    actions
        .find_map(|action| match split(action, b':') {
            None => Some(action),
            Some((action, b"1" | b"-1" | b"0")) => Some(action),
            Some(_) => None,
        })
        .and_then(action)
}

fn action(action: &[u8]) -> Option<Go> {
    match action.split_first()? {
        (b'c', []) => Some(Go::On),
        (b's', []) => Some(Go::Step),
        (b'C', signal) => signal_number(signal).map(|()| Go::On),
        (b'S', signal) => signal_number(signal).map(|()| Go::Step),
        (b'r', range) => {
            let (from, to) = split(range, b',')?;
            Some(Go::Inside(address(from)?, address(to)?))
        }
        _ => None,
    }
}

/// A signal that is handed to the program. The machine has none: what a trap does is decided by the machine.
fn signal_number(digits: &[u8]) -> Option<()> {
    number(digits).filter(|signal| *signal <= 0xFF).map(|_| ())
}

fn address(digits: &[u8]) -> Option<u32> {
    u32::try_from(number(digits)?).ok()
}

#[cfg(test)]
mod tests {
    use super::*;

    #[test]
    fn a_client_goes_on_by_letters() {
        assert_eq!(plain(b'c', b""), Some((Go::On, None)));
        assert_eq!(
            plain(b's', b"20000104"),
            Some((Go::Step, Some(0x2000_0104)))
        );
        assert_eq!(plain(b'C', b"0b"), Some((Go::On, None)));
        assert_eq!(plain(b'S', b"05;10"), Some((Go::Step, Some(0x10))));
        assert_eq!(plain(b'S', b"05;"), Some((Go::Step, None)));
        for (letter, rest) in [
            (b'c', "x"),
            (b's', "100000000"),
            (b'C', ""),
            (b'C', "100"),
            (b'S', ";10"),
            (b'S', "05;x"),
        ] {
            assert_eq!(plain(letter, rest.as_bytes()), None, "{letter} {rest}");
        }
    }

    #[test]
    fn the_first_action_for_the_thread_counts() {
        let asked = |text: &str| by_thread(text.as_bytes());
        assert_eq!(asked("c"), Some(Go::On));
        assert_eq!(asked("s:1;c"), Some(Go::Step));
        assert_eq!(asked("s:2;c"), Some(Go::On));
        assert_eq!(asked("C0b:1"), Some(Go::On));
        assert_eq!(
            asked("r20000100,20000104:1;c"),
            Some(Go::Inside(0x2000_0100, 0x2000_0104))
        );
        for text in ["", ";", "x", "s:2", "r1:1", "r1,", "Cxx", "cc", "t"] {
            assert_eq!(asked(text), None, "{text}");
        }
    }
}
