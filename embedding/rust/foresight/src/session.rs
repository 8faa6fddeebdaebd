use crate::error::{error_of, Error, Unserved};
use foresight_sys as sys;

const MESSAGE_ROOM: usize = 256;
const REPLIES_ROOM: usize = 65536;

/// Handlers that were read once, and tables that stay. It goes from thread to thread; threads share
/// it by a lock of their own.
pub struct Session {
    pub(crate) handle: sys::Handle,
    out: Vec<u8>,
}

// SAFETY: what a handle owns is used by one call at a time (`&mut self`), from any thread.
unsafe impl Send for Session {}

impl Session {
    /// Opens a session over a session file without requests, with a seed that nobody who sends
    /// requests knows, and at most so many names.
    pub fn open(text: &[u8], seed: u64, most_names: u32) -> Result<Session, Error> {
        let mut session = Session {
            handle: sys::Handle { live: false, at: std::ptr::null_mut() },
            out: vec![0; REPLIES_ROOM],
        };
        let (mut why, mut answer) = ([0; MESSAGE_ROOM], sys::Answer::default());
        // SAFETY: the handle is empty, and each pointer is that of a buffer of this size.
        let status = unsafe {
            sys::foresight_session_open(&mut session.handle, text.as_ptr(), text.len(), seed,
                most_names, why.as_mut_ptr(), why.len(), &mut answer)
        };
        match status {
            0 => Ok(session),
            _ => Err(error_of(status, &why[..answer.told], 0)),
        }
    }

    /// Serves lines, one after another, and returns a reply line for each that has words. If one
    /// isn't served, those before it are, and none after it.
    pub fn serve<L: AsRef<str>>(&mut self, lines: &[L]) -> Result<Vec<String>, Unserved> {
        let mut text = String::new();
        for line in lines {
            if line.as_ref().contains('\n') {
                return Err(Unserved { replies: Vec::new(), why: Error::ManyLines });
            }
            text.push_str(line.as_ref());
            text.push('\n');
        }
        let (mut rest, mut replies) = (text.as_bytes(), Vec::new());
        loop {
            let (status, served, why) = self.serve_some(rest);
            let written = String::from_utf8_lossy(&self.out[..served.written]);
            replies.extend(written.lines().map(str::to_owned));
            rest = &rest[served.used..];
            match status {
                0 => return Ok(replies),
                5 => {}
                _ => {
                    let why = error_of(status, &why[..served.told], served.older);
                    return Err(Unserved { replies, why });
                }
            }
        }
    }

    /// Serves a request, and returns its reply line; none if the line has no word.
    pub fn request(&mut self, line: &str) -> Result<Option<String>, Error> {
        Ok(self.serve(&[line])?.pop())
    }

    fn serve_some(&mut self, lines: &[u8]) -> (u8, sys::Served, [u8; MESSAGE_ROOM]) {
        let (mut why, mut served) = ([0; MESSAGE_ROOM], sys::Served::default());
        // SAFETY: the handle is the session's, and each pointer is that of a buffer of this size.
        let status = unsafe {
            sys::foresight_session_serve(&mut self.handle, lines.as_ptr(), lines.len(),
                self.out.as_mut_ptr(), self.out.len(), why.as_mut_ptr(), why.len(), &mut served)
        };
        (status, served, why)
    }

    /// The tables, as `foresight dump` writes them.
    pub fn tables(&mut self) -> Result<String, Error> {
        let mut answer = sys::Answer { needed: 4096, ..Default::default() };
        loop {
            let (mut out, mut why) = (vec![0; answer.needed], [0; MESSAGE_ROOM]);
            // SAFETY: as above.
            let status = unsafe {
                sys::foresight_session_dump(&mut self.handle, out.as_mut_ptr(), out.len(),
                    why.as_mut_ptr(), why.len(), &mut answer)
            };
            match status {
                0 => {
                    out.truncate(answer.written);
                    return Ok(String::from_utf8_lossy(&out).into_owned());
                }
                5 => {}
                _ => return Err(error_of(status, &why[..answer.told], 0)),
            }
        }
    }

    /// The number of a symbol's text among the names. A new name is added.
    pub fn name(&mut self, text: &str) -> Result<u32, Error> {
        let mut number = 0;
        // SAFETY: as above.
        let status = unsafe {
            sys::foresight_session_name(&mut self.handle, text.as_ptr(), text.len(), &mut number)
        };
        match status {
            0 => Ok(number),
            1 => Err(Error::Refused("the text is no symbol".to_owned())),
            _ => Err(error_of(status, &[], 0)),
        }
    }

    /// The text of the name with this number, if there is one.
    pub fn text(&mut self, number: u32) -> Option<String> {
        let (mut out, mut size) = (vec![0; 64], 0);
        loop {
            // SAFETY: as above.
            let status = unsafe {
                sys::foresight_session_text(&mut self.handle, number, out.as_mut_ptr(), out.len(),
                    &mut size)
            };
            if status != 0 {
                return None;
            }
            if size <= out.len() {
                out.truncate(size);
                return Some(String::from_utf8_lossy(&out).into_owned());
            }
            out.resize(size, 0);
        }
    }
}

impl Drop for Session {
    fn drop(&mut self) {
        // SAFETY: the handle isn't used any more.
        unsafe { sys::foresight_session_close(&mut self.handle) };
    }
}
