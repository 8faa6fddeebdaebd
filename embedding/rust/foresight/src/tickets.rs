use crate::error::{error_of, Error};
use crate::session::Session;
use foresight_sys as sys;

/// A value of a table.
#[derive(Clone, Copy, Debug, PartialEq, Eq, Hash)]
pub enum Value {
    Nil,
    Number(i64),
    /// A symbol, by its name's number in its session.
    Name(u32),
    /// Any value; only in what a ticket declares.
    Any,
}

/// Kinds of operations: the first six on maps, the others on sets. `foresight.h` says how many of
/// key and value each has, the others being nil.
#[derive(Clone, Copy, Debug, PartialEq, Eq, Hash)]
#[repr(u8)]
pub enum Kind {
    Get, Put, Swap, Del, Size, Bump, Has, Add, Mark, Drop, Count,
}

/// An operation, or what a ticket declares: operations of which key and value may be any.
#[derive(Clone, Copy, Debug, PartialEq, Eq, Hash)]
pub struct Symbol {
    pub kind: Kind,
    pub table: u32,
    pub key: Value,
    pub value: Value,
}

impl From<Value> for sys::Value {
    fn from(value: Value) -> sys::Value {
        match value {
            Value::Nil => sys::Value { sort: 0, name: 0, number: 0 },
            Value::Number(number) => sys::Value { sort: 1, name: 0, number },
            Value::Name(name) => sys::Value { sort: 2, name, number: 0 },
            Value::Any => sys::Value { sort: 3, name: 0, number: 0 },
        }
    }
}

impl From<sys::Value> for Value {
    fn from(value: sys::Value) -> Value {
        match value.sort {
            1 => Value::Number(value.number),
            2 => Value::Name(value.name),
            _ => Value::Nil,
        }
    }
}

impl From<Symbol> for sys::Operation {
    fn from(symbol: Symbol) -> sys::Operation {
        sys::Operation {
            kind: symbol.kind as u8,
            table: symbol.table,
            key: symbol.key.into(),
            value: symbol.value.into(),
        }
    }
}

fn all(symbols: &[Symbol]) -> Vec<sys::Operation> {
    symbols.iter().map(|symbol| (*symbol).into()).collect()
}

fn done(status: u8, older: u64) -> Result<(), Error> {
    match status {
        0 => Ok(()),
        _ => Err(error_of(status, &[], older)),
    }
}

/// Tickets that the program drives on the session's tables.
impl Session {
    /// Begins the next ticket, which declares these, at most 256, and returns its number. One that
    /// is never ended delays others without limit.
    pub fn begin(&mut self, declared: &[Symbol]) -> Result<u64, Error> {
        let (declared, mut ticket) = (all(declared), 0);
        // SAFETY: the handle is the session's, and each pointer is that of a buffer of this size.
        done(unsafe {
            sys::foresight_session_begin(&mut self.handle, declared.as_ptr(), declared.len(),
                &mut ticket)
        }, 0)?;
        Ok(ticket)
    }

    /// Does an operation of a ticket, and returns its reply.
    pub fn call(&mut self, ticket: u64, operation: Symbol) -> Result<Value, Error> {
        let (operation, mut reply, mut older) = (operation.into(), sys::Value::default(), 0);
        // SAFETY: as above.
        let status = unsafe {
            sys::foresight_session_call(&mut self.handle, ticket, &operation, &mut reply, &mut older)
        };
        done(status, older)?;
        Ok(reply.into())
    }

    /// Replaces what a ticket declares by these, which its own have to cover.
    pub fn narrow(&mut self, ticket: u64, declared: &[Symbol]) -> Result<(), Error> {
        let declared = all(declared);
        // SAFETY: as above.
        done(unsafe {
            sys::foresight_session_narrow(&mut self.handle, ticket, declared.as_ptr(),
                declared.len())
        }, 0)
    }

    /// Ends a ticket. What it did stays.
    pub fn end(&mut self, ticket: u64) -> Result<(), Error> {
        // SAFETY: as above.
        done(unsafe { sys::foresight_session_end(&mut self.handle, ticket) }, 0)
    }
}
