//! How a connection begins. A web page can send a browser to any port, and what it posts could hold packets; so whoever
//! begins as a browser does is not listened to.

/// The first byte of a TLS handshake, which a browser sends for https.
const TLS_HANDSHAKE: u8 = 0x16;

/// Watches the first bytes of a connection.
#[derive(Default)]
pub enum Opening {
    #[default]
    Nothing,
    /// Capitals, as of an HTTP method.
    Capitals,
    /// No browser's.
    Known,
}

impl Opening {
    /// Takes the next bytes: whether they are a browser's. A method is capitals and then a space.
    pub fn is_browser(&mut self, bytes: &[u8]) -> bool {
        for byte in bytes {
            *self = match (&self, byte) {
                (Opening::Known, _) => return false,
                (Opening::Capitals, b' ') | (Opening::Nothing, &TLS_HANDSHAKE) => return true,
                (_, b'A'..=b'Z') => Opening::Capitals,
                _ => Opening::Known,
            };
        }
        false
    }
}

#[cfg(test)]
mod tests {
    use super::*;

    fn is_browser(pieces: &[&[u8]]) -> bool {
        let mut opening = Opening::default();
        pieces.iter().any(|piece| opening.is_browser(piece))
    }

    #[test]
    fn a_request_of_http_is_known_however_it_comes() {
        let whole = b"POST / HTTP/1.1\r\n\r\n$k#6b";
        assert!(is_browser(&[b"GET / HTTP/1.1\r\n"]));
        assert!(is_browser(&[b"\x16\x03\x01\x02\x00"]));
        for at in 0..whole.len() {
            let (first, second) = whole.split_at(at);
            assert!(is_browser(&[first, second]), "{at}");
        }
        let bytes: Vec<&[u8]> = whole.chunks(1).collect();
        assert!(is_browser(&bytes));
    }

    #[test]
    fn a_debugger_is_no_browser() {
        for first in [
            &b"+$qSupported#37"[..],
            b"$GET #00",
            b"\x03",
            b"-",
            b" GET ",
            b"GEt ",
        ] {
            assert!(!is_browser(&[first, b"GET / HTTP/1.1"]), "{first:?}");
        }
    }
}
