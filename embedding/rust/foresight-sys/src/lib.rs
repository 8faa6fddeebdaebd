//! What the headers of the library declare that `foresight` calls: `foresight.h`,
//! `foresight_tickets.h` and `foresight_session.h` say what each call promises and wants.
#![no_std]
use core::ffi::c_void;

/// A handle: `foresight_session`, with the same layout as `foresight_tables`.
#[repr(C)]
pub struct Handle {
    pub live: bool,
    pub at: *mut c_void,
}

/// `foresight_answer`.
#[repr(C)]
#[derive(Clone, Copy, Default)]
pub struct Answer {
    pub written: usize,
    pub needed: usize,
    pub told: usize,
}

/// `foresight_served`.
#[repr(C)]
#[derive(Clone, Copy, Default)]
pub struct Served {
    pub used: usize,
    pub written: usize,
    pub requests: usize,
    pub told: usize,
    pub older: u64,
}

/// `foresight_value`.
#[repr(C)]
#[derive(Clone, Copy, Default)]
pub struct Value {
    pub sort: u8,
    pub name: u32,
    pub number: i64,
}

/// `foresight_operation`.
#[repr(C)]
#[derive(Clone, Copy, Default)]
pub struct Operation {
    pub kind: u8,
    pub table: u32,
    pub key: Value,
    pub value: Value,
}

extern "C" {
    pub fn foresight_version() -> u32;
    pub fn foresight_session_open(
        session: *mut Handle, text: *const u8, text_size: usize, seed: u64, most_names: u32,
        message: *mut u8, message_size: usize, answer: *mut Answer,
    ) -> u8;
    pub fn foresight_session_serve(
        session: *mut Handle, lines: *const u8, lines_size: usize, out: *mut u8, out_size: usize,
        message: *mut u8, message_size: usize, served: *mut Served,
    ) -> u8;
    pub fn foresight_session_dump(
        session: *mut Handle, out: *mut u8, out_size: usize, message: *mut u8,
        message_size: usize, answer: *mut Answer,
    ) -> u8;
    pub fn foresight_session_begin(
        session: *mut Handle, declared: *const Operation, size: usize, ticket: *mut u64,
    ) -> u8;
    pub fn foresight_session_call(
        session: *mut Handle, ticket: u64, operation: *const Operation, reply: *mut Value,
        older: *mut u64,
    ) -> u8;
    pub fn foresight_session_narrow(
        session: *mut Handle, ticket: u64, declared: *const Operation, size: usize,
    ) -> u8;
    pub fn foresight_session_end(session: *mut Handle, ticket: u64) -> u8;
    pub fn foresight_session_name(
        session: *mut Handle, text: *const u8, text_size: usize, number: *mut u32,
    ) -> u8;
    pub fn foresight_session_text(
        session: *mut Handle, number: u32, out: *mut u8, out_size: usize, size: *mut usize,
    ) -> u8;
    pub fn foresight_session_close(session: *mut Handle) -> u8;
}
