//! Session tables: request handlers over shared maps and sets, which run with the replies of one
//! request at a time. A `Session` is handlers that are read once, and tables that stay.
//!
//! ```no_run
//! let handlers = "map m; handler f(k) { let a = get(m, k); put(m, k, 1); reply a; }\n%%\n";
//! let mut session = foresight::Session::open(handlers.as_bytes(), 7, 1000)?;
//! assert_eq!(session.serve(&["f a", "f a"])?, ["nil", "1"]);
//! # Ok::<(), foresight::Error>(())
//! ```
mod error;
mod session;
mod tickets;

pub use error::{Error, Unserved};
pub use session::Session;
pub use tickets::{Kind, Symbol, Value};

/// The version of the library that is linked: 10,000 times its first number, and 100 times its
/// second.
pub fn version() -> u32 {
    // SAFETY: the call takes and changes nothing.
    unsafe { foresight_sys::foresight_version() }
}
