//! server HANDLERS [unix PATH | tcp PORT]..: the server of server.c in plain Rust: a thread a
//! connection, the session guarded by a `Mutex`, which no thread holds while it reads or sends. A
//! request is a line, and so is its answer: the reply, or `! ` and why it isn't served. At the top of
//! the repository it is built by
//!
//!     rustc --edition 2024 -O embedding/server.rs -C link-arg=target/look/libforesight.a -o server
//!
//! A line of 65,536 bytes or more is answered `! a line too long`; half a line at a connection's end
//! isn't served; a client that doesn't read for five seconds loses its connection. It ends when its
//! own input ends (Rust's standard library catches no signal), and writes the tables.
use std::ffi::c_void;
use std::io::{Read, Write};
use std::net::{TcpListener, TcpStream};
use std::os::unix::net::{UnixListener, UnixStream};
use std::process::exit;
use std::sync::{Arc, Mutex};
use std::thread;
use std::time::Duration;

const LINE_ROOM: usize = 65536;
const REPLIES_ROOM: usize = 65536;
const MESSAGE_ROOM: usize = 256;
const MOST_NAMES: u32 = 1_000_000;
const SEND_TIME: Duration = Duration::from_secs(5);
/// How long a socket waits that can't accept a client, as when there are too many descriptors.
const RETRY_TIME: Duration = Duration::from_millis(10);

#[repr(C)]
struct Handle {
    live: bool,
    at: *mut c_void,
}

#[repr(C)]
#[derive(Default)]
struct Answer {
    written: usize,
    needed: usize,
    told: usize,
}

#[repr(C)]
#[derive(Default)]
struct Served {
    used: usize,
    written: usize,
    requests: usize,
    told: usize,
    older: u64,
}

unsafe extern "C" {
    fn foresight_session_open(
        session: *mut Handle, text: *const u8, text_size: usize, seed: u64, most_names: u32,
        message: *mut u8, message_size: usize, answer: *mut Answer,
    ) -> u8;
    fn foresight_session_serve(
        session: *mut Handle, lines: *const u8, lines_size: usize, out: *mut u8, out_size: usize,
        message: *mut u8, message_size: usize, served: *mut Served,
    ) -> u8;
    fn foresight_session_dump(
        session: *mut Handle, out: *mut u8, out_size: usize, message: *mut u8,
        message_size: usize, answer: *mut Answer,
    ) -> u8;
    fn foresight_session_close(session: *mut Handle) -> u8;
}

/// A session. It is used by one call at a time (`&mut self`), from any thread.
pub struct Session(Handle);

// SAFETY: the library proves `Send` of what its handles own; the pointer is used by its calls alone.
unsafe impl Send for Session {}

/// Why a call ended.
#[derive(Debug, PartialEq)]
pub enum Ended {
    /// All lines are used.
    All,
    /// The room may not take one more reply.
    NoRoom,
    /// The lines are no UTF-8, and none is used.
    NotText,
    /// The last line that is used isn't served; or with the status 3 the one behind it.
    Stopped(u8, String),
}

impl Session {
    /// Opens a session over handlers and what tables open with.
    pub fn open(text: &[u8], seed: u64, most_names: u32) -> Result<Session, (u8, String)> {
        let mut session = Session(Handle { live: false, at: std::ptr::null_mut() });
        let (mut why, mut answer) = ([0; MESSAGE_ROOM], Answer::default());
        let status = unsafe {
            foresight_session_open(&mut session.0, text.as_ptr(), text.len(), seed, most_names,
                why.as_mut_ptr(), why.len(), &mut answer)
        };
        if status == 0 {
            return Ok(session);
        }
        Err((status, String::from_utf8_lossy(&why[..answer.told]).into_owned()))
    }

    /// Serves lines: how many bytes of them are used, how many replies take, and why it ended.
    pub fn serve(&mut self, lines: &[u8], out: &mut [u8]) -> (usize, usize, Ended) {
        let (mut why, mut served) = ([0; MESSAGE_ROOM], Served::default());
        let status = unsafe {
            foresight_session_serve(&mut self.0, lines.as_ptr(), lines.len(), out.as_mut_ptr(),
                out.len(), why.as_mut_ptr(), why.len(), &mut served)
        };
        let ended = match status {
            0 => Ended::All,
            5 => Ended::NoRoom,
            16 => Ended::NotText,
            _ => Ended::Stopped(status, String::from_utf8_lossy(&why[..served.told]).into_owned()),
        };
        (served.used, served.written, ended)
    }

    /// The tables, as `foresight dump` writes them.
    pub fn dump(&mut self) -> Result<Vec<u8>, u8> {
        let (mut why, mut answer) = ([0; MESSAGE_ROOM], Answer { needed: 4096, ..Answer::default() });
        loop {
            let mut out = vec![0; answer.needed];
            let status = unsafe {
                foresight_session_dump(&mut self.0, out.as_mut_ptr(), out.len(), why.as_mut_ptr(),
                    why.len(), &mut answer)
            };
            match status {
                0 => {
                    out.truncate(answer.written);
                    return Ok(out);
                }
                5 => {}
                _ => return Err(status),
            }
        }
    }
}

impl Drop for Session {
    fn drop(&mut self) {
        unsafe { foresight_session_close(&mut self.0) };
    }
}

/// How many bytes the first of whole lines has.
fn first_line(lines: &[u8]) -> usize {
    lines.iter().position(|b| *b == b'\n').map_or(lines.len(), |at| at + 1)
}

/// Serves whole lines and sends what they are answered: all at one go, but where one of them is no
/// text, one by one.
fn serve<S: Write>(at: &mut S, session: &Mutex<Session>, mut lines: &[u8]) -> std::io::Result<()> {
    let mut out = vec![0; REPLIES_ROOM];
    let mut one_by_one = false;
    while !lines.is_empty() {
        let most = if one_by_one { first_line(lines) } else { lines.len() };
        let (mut used, written, ended) = session.lock().unwrap().serve(&lines[..most], &mut out);
        let mut answer = out[..written].to_vec();
        match ended {
            Ended::All | Ended::NoRoom => {}
            Ended::NotText if first_line(lines) < most => one_by_one = true,
            Ended::NotText => {
                one_by_one = true;
                used = most;
                answer.extend_from_slice(b"! not text\n");
            }
            Ended::Stopped(status, why) => {
                if status == 3 {
                    used += first_line(&lines[used..]);
                }
                answer.extend_from_slice(format!("! {why}").as_bytes());
            }
        }
        at.write_all(&answer)?;
        lines = &lines[used..];
    }
    Ok(())
}

/// Serves a client until its lines end.
fn connection<S: Read + Write>(mut at: S, session: &Mutex<Session>) -> std::io::Result<()> {
    let (mut lines, mut have, mut skips) = (vec![0; LINE_ROOM], 0, false);
    loop {
        let got = at.read(&mut lines[have..])?;
        if got == 0 {
            return Ok(());
        }
        have += got;
        if skips {
            let end = lines[..have].iter().position(|b| *b == b'\n');
            let past = end.map_or(have, |end| end + 1);
            lines.copy_within(past..have, 0);
            have -= past;
            skips = end.is_none();
            if skips {
                continue;
            }
            at.write_all(b"! a line too long\n")?;
        }
        let whole = lines[..have].iter().rposition(|b| *b == b'\n').map_or(0, |last| last + 1);
        serve(&mut at, session, &lines[..whole])?;
        lines.copy_within(whole..have, 0);
        have -= whole;
        if have == LINE_ROOM {
            (skips, have) = (true, 0);
        }
    }
}

fn serve_unix(at: UnixStream, session: &Mutex<Session>) {
    let _ = at.set_write_timeout(Some(SEND_TIME));
    let _ = connection(at, session);
}

fn serve_tcp(at: TcpStream, session: &Mutex<Session>) {
    let _ = (at.set_write_timeout(Some(SEND_TIME)), at.set_nodelay(true));
    let _ = connection(at, session);
}

/// Accepts clients at a socket, each with a thread.
fn listen(kind: &str, word: &str, session: &Arc<Mutex<Session>>) -> std::io::Result<()> {
    let session = session.clone();
    if kind == "unix" {
        let _ = std::fs::remove_file(word);
        let listener = UnixListener::bind(word)?;
        eprintln!("server: unix {word}");
        thread::spawn(move || {
            for at in listener.incoming() {
                let session = session.clone();
                match at {
                    Ok(at) => drop(thread::spawn(move || serve_unix(at, &session))),
                    Err(_) => thread::sleep(RETRY_TIME),
                }
            }
        });
    } else {
        let listener = TcpListener::bind(("127.0.0.1", word.parse().unwrap_or(0)))?;
        eprintln!("server: tcp {}", listener.local_addr()?.port());
        thread::spawn(move || {
            for at in listener.incoming() {
                let session = session.clone();
                match at {
                    Ok(at) => drop(thread::spawn(move || serve_tcp(at, &session))),
                    Err(_) => thread::sleep(RETRY_TIME),
                }
            }
        });
    }
    Ok(())
}

/// Eight bytes that nobody else knows.
fn seed() -> std::io::Result<u64> {
    let mut bytes = [0; 8];
    std::fs::File::open("/dev/urandom")?.read_exact(&mut bytes)?;
    Ok(u64::from_le_bytes(bytes))
}

fn main() -> std::io::Result<()> {
    let words: Vec<String> = std::env::args().skip(1).collect();
    if words.len() < 3 || words.len() % 2 == 0 {
        eprintln!("server: words: HANDLERS [unix PATH | tcp PORT]..");
        exit(2);
    }
    let session = match Session::open(&std::fs::read(&words[0])?, seed()?, MOST_NAMES) {
        Ok(session) => Arc::new(Mutex::new(session)),
        Err((status, why)) => {
            eprint!("{why}");
            exit(status.into());
        }
    };
    for at in words[1..].chunks(2) {
        listen(&at[0], &at[1], &session)?;
    }
    std::io::copy(&mut std::io::stdin(), &mut std::io::sink())?;
    let tables = session.lock().unwrap().dump();
    match tables {
        Ok(tables) => std::io::stdout().write_all(&tables),
        Err(status) => exit(status.into()),
    }
}
