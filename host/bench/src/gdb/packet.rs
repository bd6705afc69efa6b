//! Packets as they stand on the line: `$payload#sum`, acknowledgements, and the byte that interrupts.

#[cfg(test)]
mod tests;

/// The most bytes of a payload. What is longer is dropped while it comes in.
pub const MOST_PAYLOAD: usize = 0x4000;

const INTERRUPT: u8 = 0x03;
const ESCAPE: u8 = b'}';
const ESCAPED: u8 = 0x20;

/// What came in.
#[derive(Clone, PartialEq, Eq, Debug)]
pub enum Event {
    Packet(Vec<u8>),
    /// A packet whose sum is another, or no sum at all.
    BadSum,
    /// A packet of more than `MOST_PAYLOAD` bytes.
    TooLong,
    Interrupt,
    /// The client wants the last packet again.
    Again,
}

#[derive(Clone, Copy, PartialEq, Eq, Debug, Default)]
enum Place {
    #[default]
    Between,
    Payload,
    FirstDigit,
    SecondDigit(u8),
}

/// Makes events of bytes. It holds one payload at most.
#[derive(Default)]
pub struct Framer {
    place: Place,
    payload: Vec<u8>,
    sum: u8,
    too_long: bool,
}

impl Framer {
    /// Takes the next byte: an event where one is whole.
    pub fn take(&mut self, byte: u8) -> Option<Event> {
        match self.place {
            Place::Between => self.between(byte),
            Place::Payload => {
                self.payload(byte);
                None
            }
            // The sum was lost, and the next packet begins.
            Place::FirstDigit | Place::SecondDigit(_) if byte == b'$' => {
                self.begin();
                Some(Event::BadSum)
            }
            Place::FirstDigit => {
                self.place = Place::SecondDigit(byte);
                None
            }
            Place::SecondDigit(first) => {
                self.place = Place::Between;
                Some(self.whole(first, byte))
            }
        }
    }

    fn between(&mut self, byte: u8) -> Option<Event> {
        match byte {
            b'$' => self.begin(),
            b'-' => return Some(Event::Again),
            INTERRUPT => return Some(Event::Interrupt),
            _ => {}
        }
        None
    }

    fn begin(&mut self) {
        self.place = Place::Payload;
        self.payload.clear();
        self.sum = 0;
        self.too_long = false;
    }

    /// A byte of a packet. A packet's start inside of one gives up the first, whose end was lost.
    fn payload(&mut self, byte: u8) {
        match byte {
            b'#' => self.place = Place::FirstDigit,
            b'$' => self.begin(),
            _ => {
                self.sum = self.sum.wrapping_add(byte);
                if self.payload.len() < MOST_PAYLOAD {
                    self.payload.push(byte);
                } else {
                    self.too_long = true;
                }
            }
        }
    }

    fn whole(&mut self, first: u8, second: u8) -> Event {
        match (nibble(first), nibble(second)) {
            _ if self.too_long => Event::TooLong,
            (Some(high), Some(low)) if 16 * high + low == self.sum => {
                Event::Packet(std::mem::take(&mut self.payload))
            }
            _ => Event::BadSum,
        }
    }
}

/// A payload as it is sent, with what would end or change it escaped.
pub fn framed(payload: &[u8]) -> Vec<u8> {
    let mut packet = vec![b'$'];
    for byte in payload {
        match byte {
            b'#' | b'$' | b'*' | &ESCAPE => packet.extend([ESCAPE, byte ^ ESCAPED]),
            _ => packet.push(*byte),
        }
    }
    let sum = packet[1..]
        .iter()
        .fold(0u8, |sum, byte| sum.wrapping_add(*byte));
    packet.extend(format!("#{sum:02x}").into_bytes());
    packet
}

/// Binary data as it was before it was escaped; none if it ends in an escape.
pub fn unescaped(data: &[u8]) -> Option<Vec<u8>> {
    let mut bytes = Vec::with_capacity(data.len());
    let mut rest = data.iter();
    while let Some(byte) = rest.next() {
        bytes.push(match *byte {
            ESCAPE => rest.next()? ^ ESCAPED,
            byte => byte,
        });
    }
    Some(bytes)
}

fn nibble(digit: u8) -> Option<u8> {
    Some(char::from(digit).to_digit(16)? as u8)
}

/// A number of one to sixteen hexadecimal digits.
pub fn number(digits: &[u8]) -> Option<u64> {
    if digits.is_empty() || digits.len() > 16 {
        return None;
    }
    digits.iter().try_fold(0, |number, digit| {
        Some(number << 4 | u64::from(nibble(*digit)?))
    })
}

/// The bytes of pairs of hexadecimal digits.
pub fn bytes(digits: &[u8]) -> Option<Vec<u8>> {
    let pairs = digits.chunks(2);
    pairs
        .map(|pair| match pair {
            [high, low] => Some(nibble(*high)? << 4 | nibble(*low)?),
            _ => None,
        })
        .collect()
}

/// Bytes as pairs of hexadecimal digits.
pub fn digits(bytes: &[u8]) -> Vec<u8> {
    let pair = |byte: &u8| format!("{byte:02x}").into_bytes();
    bytes.iter().flat_map(pair).collect()
}

/// What stands before and after the first of a byte.
pub fn split(text: &[u8], at: u8) -> Option<(&[u8], &[u8])> {
    let place = text.iter().position(|byte| *byte == at)?;
    Some((&text[..place], &text[place + 1..]))
}
