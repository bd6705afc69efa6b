//! The debugger's connection: one client at a time, clients that go away, and bytes of any kind over TCP.

mod common;

use common::state::{text, with_code, START};
use common::words::{addi, EBREAK};
use common::{bench_in, directory, examples};
use lent::{Capability, State, EXECUTABLE_ROOT, MTCC};
use std::io::{BufRead, BufReader, ErrorKind, Read, Write};
use std::net::TcpStream;
use std::path::Path;
use std::process::{Child, ChildStdout, Command, Stdio};
use std::time::{Duration, Instant};

const JUMP_TO_ITSELF: u32 = 0x0000_006F;
/// bne c10, c11, -4
const AGAIN: u32 = 0xFEB5_1EE3;

/// A bench that waits for debuggers, ended with the test.
struct Bench {
    child: Child,
    out: BufReader<ChildStdout>,
    place: String,
}

impl Bench {
    fn start(folder: &Path, arguments: &[&str]) -> Bench {
        let mut child = Command::new(env!("CARGO_BIN_EXE_bench"))
            .args(["gdb", "--port", "0"])
            .args(arguments)
            .current_dir(folder)
            .stdout(Stdio::piped())
            .stderr(Stdio::piped())
            .spawn()
            .expect("the command runs");
        let mut out = BufReader::new(child.stdout.take().expect("its output"));
        let mut line = String::new();
        while !line.contains("target remote") {
            line.clear();
            assert_ne!(out.read_line(&mut line).expect("a line"), 0, "it waits");
        }
        let place = line.split("target remote ").nth(1).expect("a place");
        let place = place.trim_end().trim_end_matches('\'').to_string();
        Bench { child, out, place }
    }

    fn of_code(name: &str, code: &[u32]) -> Bench {
        Bench::of_state(name, &with_code(code))
    }

    fn of_state(name: &str, state: &State) -> Bench {
        let folder = directory(name);
        std::fs::write(folder.join("state"), text(state)).expect("a state");
        Bench::start(&folder, &["--state", "state"])
    }

    fn connect(&self) -> Client {
        let stream = TcpStream::connect(&self.place).expect("a connection");
        let patience = Some(Duration::from_secs(20));
        stream.set_read_timeout(patience).expect("a timeout");
        Client(stream)
    }

    /// A client that the bench serves: one that comes just after another is gone may be too early.
    fn client(&self) -> Client {
        let began = Instant::now();
        while began.elapsed() < Duration::from_secs(20) {
            let mut client = self.connect();
            client.send("qC");
            if client.answer() == Some("QC1".into()) {
                return client;
            }
            std::thread::sleep(Duration::from_millis(20));
        }
        panic!("no client is served");
    }

    /// Its exit status, and the rest of what it wrote.
    fn end(self) -> (i32, String) {
        let (status, text, err) = self.end_with_errors();
        assert_eq!(err, "");
        (status, text)
    }

    /// The same with what it wrote on standard error.
    fn end_with_errors(mut self) -> (i32, String, String) {
        let (mut text, mut err) = (String::new(), String::new());
        self.out.read_to_string(&mut text).expect("text");
        let errors = self.child.stderr.as_mut().expect("its errors");
        errors.read_to_string(&mut err).expect("text");
        let status = self.child.wait().expect("an end");
        (status.code().expect("a status"), text, err)
    }
}

impl Drop for Bench {
    fn drop(&mut self) {
        let _ = self.child.kill();
        let _ = self.child.wait();
    }
}

struct Client(TcpStream);

fn framed(payload: &[u8]) -> Vec<u8> {
    let sum = payload
        .iter()
        .fold(0u8, |sum, byte| sum.wrapping_add(*byte));
    [b"$", payload, format!("#{sum:02x}").as_bytes()].concat()
}

impl Client {
    fn send(&mut self, payload: &str) {
        let _ = self.0.write_all(&framed(payload.as_bytes()));
    }

    /// The next packet; none if the connection is closed.
    fn answer(&mut self) -> Option<String> {
        let (mut packet, mut byte) = (Vec::new(), [0]);
        while !(packet.len() > 3 && packet[packet.len() - 3] == b'#') {
            match self.0.read(&mut byte) {
                Ok(0) => return None,
                Err(error) if error.kind() == ErrorKind::ConnectionReset => return None,
                Err(error) => panic!("{error}"),
                Ok(_) if packet.is_empty() && byte[0] != b'$' => {}
                Ok(_) => packet.push(byte[0]),
            }
        }
        Some(String::from_utf8(packet[1..packet.len() - 3].to_vec()).expect("text"))
    }

    fn ask(&mut self, payload: &str) -> String {
        self.send(payload);
        self.answer().expect("an answer")
    }

    /// The next stop, after what is said on the console before it.
    fn stop(&mut self) -> String {
        let mut stop = self.answer().expect("a stop");
        while stop.starts_with('O') {
            stop = self.answer().expect("a stop");
        }
        stop
    }
}

#[test]
fn a_client_that_leaves_or_goes_away_leaves_the_machine() {
    let bench = Bench::of_code("gdb_leaves", &[addi(10, 10, 1), addi(10, 10, 1), EBREAK]);
    let mut first = bench.client();
    assert!(first.ask("s").starts_with("T05"));
    assert_eq!(first.ask("Z0,20000004,4"), "OK");
    assert_eq!(first.ask("D"), "OK");
    assert_eq!(first.answer(), None);
    // In the middle of a packet, and between packets.
    for bytes in [&b"$m2000"[..], b"$m20000000,4#", b"$s", b"+", b""] {
        let mut client = bench.client();
        client.0.write_all(bytes).expect("written");
    }
    let mut last = bench.client();
    assert_eq!(last.ask("pa"), "01000000");
    assert_eq!(last.ask("p20"), "04000020");
    // The first one's breakpoint is gone with it: the machine goes on to the trap.
    last.send("c");
    let stop = last.stop();
    assert!(stop.starts_with("T0520:08000020;"), "{stop}");
    last.send("k");
    let (status, text) = bench.end();
    assert_eq!(status, 0);
    assert!(text.contains("has left; the machine stays."), "{text}");
    assert!(text.contains("is gone"), "{text}");
    assert!(
        text.ends_with("has ended the machine.\n2 steps retired, 0 trapped.\n"),
        "{text}"
    );
}

/// That a client is told why it is sent away, and after which time it would not be.
fn assert_sent_away(answer: &str) {
    let silent = answer.strip_prefix("E.another debugger is connected, silent for ");
    let silent = silent.and_then(|rest| rest.split_once(" s; "));
    let (seconds, rest) = silent.unwrap_or_else(|| panic!("{answer}"));
    assert!(
        seconds.parse::<u64>().is_ok_and(|seconds| seconds < 10),
        "{answer}"
    );
    assert_eq!(rest, "after 10 s of silence the next takes its place");
}

#[test]
fn a_second_client_is_told_so_and_the_first_goes_on() {
    let bench = Bench::of_code("gdb_second", &[addi(10, 10, 1), EBREAK]);
    let mut first = bench.client();
    let mut second = bench.connect();
    // As gdb does, which shows the first answer, and the second as its reason to give up.
    for asked in ["qSupported:swbreak+", "vMustReplyEmpty"] {
        assert_sent_away(&second.ask(asked));
    }
    assert!(first.ask("s").starts_with("T05"));
    // One that asks nothing is told too, when its time is over.
    let mut silent = bench.connect();
    assert_sent_away(&silent.answer().expect("an answer"));
    assert_eq!(silent.answer(), None);
    drop(first);
    assert_eq!(bench.client().ask("pa"), "01000000");
}

/// How often something comes is not limited: who is sent away takes no place.
#[test]
fn any_number_of_clients_is_sent_away() {
    let bench = Bench::of_code("gdb_many", &[addi(10, 10, 1), EBREAK]);
    let mut first = bench.client();
    let mut others: Vec<Client> = (0..100).map(|_| bench.connect()).collect();
    let told = others.iter_mut().filter_map(|other| {
        other.send("qC");
        other.answer()
    });
    let told: Vec<String> = told.collect();
    assert!(told.len() >= 10, "{}", told.len());
    told.iter().for_each(|told| assert_sent_away(told));
    assert!(first.ask("s").starts_with("T05"));
}

/// How long a client is silent before the next one takes its place.
const SILENCE: Duration = Duration::from_secs(10);

#[test]
fn a_silent_client_is_told_to_go_by_the_next_one_and_one_that_waits_for_the_machine_is_not() {
    let mut state = with_code(&[addi(10, 10, 1), AGAIN, EBREAK]);
    state.set(11, Capability::integer(u32::MAX));
    let bench = Bench::of_state("gdb_silent", &state);
    let mut first = bench.client();
    assert!(first.ask("s").starts_with("T05"));
    first.send("c");
    std::thread::sleep(SILENCE + Duration::from_millis(500));
    // The machine goes on for it all the time.
    assert_sent_away(&bench.connect().ask("qC"));
    first.0.write_all(b"\x03").expect("written");
    assert!(first.stop().starts_with("T02"));
    let counted = first.ask("pa");
    let began = Instant::now();
    assert_sent_away(&bench.connect().ask("qC"));
    let mut second = bench.client();
    assert!(began.elapsed() > SILENCE - Duration::from_secs(1));
    assert_eq!(second.ask("pa"), counted);
    let told = "E.silent for 10 s, and another debugger has come";
    assert_eq!(first.answer(), Some(told.into()));
    assert_eq!(first.answer(), None);
    second.send("k");
    let (status, text) = bench.end();
    assert_eq!(status, 0);
    assert!(
        text.contains(" was silent, and another has come; the machine stays where it is.\n"),
        "{text}"
    );
}

#[test]
fn a_browser_is_sent_away_and_what_it_posts_is_not_obeyed() {
    let bench = Bench::of_code("gdb_browser", &[addi(10, 10, 1), EBREAK]);
    let posted = [
        b"POST / HTTP/1.1\r\nHost: 127.0.0.1\r\n\r\n",
        &framed(b"k")[..],
    ]
    .concat();
    let mut browsers = 0;
    let mut meet = |pieces: &[&[u8]]| {
        let mut browser = bench.connect();
        for piece in pieces {
            let _ = browser.0.write_all(piece);
            std::thread::sleep(Duration::from_millis(50));
        }
        assert_eq!(browser.answer(), None, "{pieces:?}");
        browsers += 1;
    };
    meet(&[b"GET / HTTP/1.1\r\n\r\n"]);
    meet(&[&posted]);
    meet(&[&posted[..2], &posted[2..5], &posted[5..]]);
    meet(&[b"\x16\x03\x01\x02\x00\x01\x00"]);
    // Beside a debugger as before it.
    let mut client = bench.client();
    meet(&[&posted]);
    assert!(client.ask("s").starts_with("T05"));
    client.send("k");
    let (status, text, err) = bench.end_with_errors();
    assert_eq!(status, 0);
    assert!(text.ends_with("1 step retired, 0 trapped.\n"), "{text}");
    let said = " speaks as a browser does, and a debugger is waited for here: it is sent away\n";
    assert_eq!(err.matches(said).count(), browsers, "{err}");
    assert_eq!(err.lines().count(), browsers, "{err}");
}

#[test]
fn a_run_without_an_end_is_interrupted_soon() {
    let bench = Bench::of_code("gdb_interrupt", &[addi(10, 10, 1), AGAIN, JUMP_TO_ITSELF]);
    let mut client = bench.client();
    // c11 is -1, so that the loop is a long one; then with a breakpoint, and with a watched range alone, that is never met.
    assert_eq!(client.ask("Pb=ffffffff"), "OK");
    for setting in ["z0,20000040,4", "Z0,20000040,4", "Z2,20000040,4"] {
        assert_eq!(client.ask("z0,20000040,4"), "OK");
        assert_eq!(client.ask(setting), "OK");
        client.send("c");
        std::thread::sleep(Duration::from_millis(300));
        let began = Instant::now();
        client.0.write_all(b"\x03").expect("written");
        let stop = client.stop();
        assert!(stop.starts_with("T02"), "{stop}");
        assert!(began.elapsed() < Duration::from_secs(3), "{setting}");
    }
}

#[test]
fn a_client_that_is_lost_in_a_run_stops_it_where_it_is() {
    // A trap whose handler is a long loop.
    let mut state = with_code(&[EBREAK, addi(10, 10, 1), AGAIN, JUMP_TO_ITSELF]);
    state.set(MTCC, Capability::tagged(START + 4, EXECUTABLE_ROOT));
    state.set(11, Capability::integer(u32::MAX));
    let bench = Bench::of_state("gdb_lost", &state);
    let mut client = bench.client();
    client.send("c");
    assert!(client.stop().starts_with("T0520:00000020;"));
    client.send("c");
    std::thread::sleep(Duration::from_millis(100));
    drop(client);
    let mut next = bench.client();
    let (stop, at) = (next.ask("?"), next.ask("p20"));
    assert!(["04000020", "08000020"].contains(&at.as_str()), "{at}");
    assert!(stop.starts_with(&format!("T0220:{at};")), "{stop}");
    let counted = next.ask("pa");
    assert_ne!(counted, "00000000");
    std::thread::sleep(Duration::from_millis(100));
    assert_eq!(next.ask("pa"), counted);
}

#[test]
fn bytes_of_any_kind_over_the_line() {
    let bench = Bench::of_code("gdb_fuzz", &[addi(10, 10, 1), EBREAK]);
    let mut number = 1u64;
    let mut word = || {
        number = number
            .wrapping_mul(6_364_136_223_846_793_005)
            .wrapping_add(1);
        (number >> 32) as u32
    };
    let known = [
        "g",
        "m20000000,40",
        "P2=00000000",
        "Z0,20000000,4",
        "s",
        "qC",
        "qXfer:features:read:target.xml:0,fff",
    ];
    for _ in 0..60 {
        let mut client = bench.client();
        client.0.set_nonblocking(true).expect("it can");
        for _ in 0..50 {
            let mut payload = known[word() as usize % known.len()].as_bytes().to_vec();
            let place = word() as usize % payload.len();
            payload[place] = word() as u8;
            // k and vKill end the machine, and rightly.
            if !payload.starts_with(b"k") {
                let _ = client.0.write_all(&framed(&payload));
            }
            let _ = client.0.read(&mut [0; 4096]);
        }
    }
    let mut client = bench.client();
    assert!(client.ask("?").starts_with("T"));
    assert_eq!(client.ask("m20000004,4"), "73001000");
    // A packet of four million bytes.
    let long = framed(&vec![b'm'; 4_000_000]);
    client.0.write_all(&long).expect("written");
    assert_eq!(client.answer(), Some("E03".into()));
}

/// The most memory, in KiB, that a process has had.
fn most_memory(process: u32) -> u64 {
    let status = std::fs::read_to_string(format!("/proc/{process}/status")).expect("a status");
    let line = status.lines().find(|line| line.starts_with("VmHWM:"));
    let words = line.expect("its most memory").split_whitespace();
    words
        .skip(1)
        .find_map(|word| word.parse().ok())
        .expect("a number")
}

#[test]
fn a_client_that_asks_and_never_reads_is_given_up() {
    let bench = Bench::of_code("gdb_never_reads", &[addi(10, 10, 1), EBREAK]);
    let mut silent = bench.client();
    let patience = Some(Duration::from_millis(500));
    silent.0.set_write_timeout(patience).expect("a timeout");
    // Each is answered by a thousand letters, until the bench waits for its reader.
    let asked = framed(b"g").repeat(1_000);
    let began = Instant::now();
    while silent.0.write_all(&asked).is_ok() {
        assert!(began.elapsed() < Duration::from_secs(60), "it takes all");
    }
    assert_sent_away(&bench.connect().ask("qC"));
    // A client that comes later is served, and the machine is as it was.
    let mut later = bench.client();
    assert_eq!(later.ask("p20"), "00000020");
    assert!(most_memory(bench.child.id()) < 64 << 10);
    later.send("k");
    let (status, text) = bench.end();
    assert_eq!(status, 0);
    assert!(
        text.contains("is gone, its answers were not read;"),
        "{text}"
    );
}

#[test]
fn the_port_is_of_the_loopback_alone_unless_it_is_asked_for() {
    let folder = examples();
    let image = ["interlock_small.hex", "interlock_image.hex"];
    let bench = Bench::start(&folder, &image);
    assert!(bench.place.starts_with("127.0.0.1:"));
    let port = bench.place.split(':').nth(1).expect("a port");
    let again = bench_in(&folder, &["gdb", "--port", port, image[0]]);
    assert_eq!(again.status, 3);
    assert!(
        again.err.contains(&format!("port {port}: ")),
        "{}",
        again.err
    );
    let anywhere = Bench::start(&folder, &["--listen-anywhere", image[0], image[1]]);
    assert!(anywhere.place.starts_with("0.0.0.0:"));
}

#[test]
fn what_run_refuses_is_refused_before_a_debugger_is_waited_for() {
    let folder = examples();
    let misfit = bench_in(
        &folder,
        &["gdb", "--map", "interlock_small.map", "interlock_image.img"],
    );
    assert_eq!(misfit.status, 2);
    assert!(misfit.err.contains("does not fit"));
    let size = bench_in(&folder, &["gdb", "--size", "65", "interlock_image.hex"]);
    assert_eq!(size.status, 2);
    assert!(size.err.contains("refused, number 2"));
    let missing = bench_in(&folder, &["gdb", "nothing.hex"]);
    assert_eq!((missing.status, missing.out.as_str()), (3, ""));
}
