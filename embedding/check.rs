//! Answers to the bytes of standard input as `foresight check` does, without that program; with one
//! of the words show, ranges, audit, serve, dump as that command. `oracle/embedding.sh` builds and
//! runs it.

use std::io::{Read, Write};
use std::process::exit;

/// What a call tells beside its status, as `foresight.h` has it.
#[repr(C)]
#[derive(Default)]
struct Answer {
    written: usize,
    needed: usize,
    told: usize,
}

type Command = unsafe extern "C" fn(
    *const u8,
    usize,
    *mut u8,
    usize,
    *mut u8,
    usize,
    *mut Answer,
) -> u8;

macro_rules! commands {
    ($($name:ident)*) => {
        unsafe extern "C" {
            $(fn $name(
                text: *const u8,
                text_size: usize,
                out: *mut u8,
                out_size: usize,
                message: *mut u8,
                message_size: usize,
                answer: *mut Answer,
            ) -> u8;)*
        }
    };
}

commands!(
    foresight_check
    foresight_show
    foresight_ranges
    foresight_audit
    foresight_serve
    foresight_dump
);

/// The command of this word.
fn command_of(word: &str) -> Option<Command> {
    match word {
        "check" => Some(foresight_check),
        "show" => Some(foresight_show),
        "ranges" => Some(foresight_ranges),
        "audit" => Some(foresight_audit),
        "serve" => Some(foresight_serve),
        "dump" => Some(foresight_dump),
        _ => None,
    }
}

/// The status of a command's answer to an input, its text and its message.
fn answer(command: Command, input: &[u8]) -> (u8, Vec<u8>, Vec<u8>) {
    let mut out = vec![0; 4096];
    let mut message = vec![0; 256];
    loop {
        let mut answer = Answer::default();
        // The slices don't overlap, and no pointer of a slice is null.
        let status = unsafe {
            command(
                input.as_ptr(),
                input.len(),
                out.as_mut_ptr(),
                out.len(),
                message.as_mut_ptr(),
                message.len(),
                &mut answer,
            )
        };
        if answer.needed > out.len() {
            out.resize(answer.needed, 0);
            continue;
        }
        out.truncate(answer.written);
        message.truncate(answer.told);
        return (status, out, message);
    }
}

fn give_up(line: &str, status: i32) -> ! {
    eprint!("{line}");
    exit(status)
}

fn main() {
    let words: Vec<String> = std::env::args().skip(1).collect();
    let command = match words.as_slice() {
        [] => command_of("check"),
        [word] => command_of(word),
        _ => None,
    };
    let Some(command) = command else {
        give_up("usage: check [check | show | ranges | audit | serve | dump]\n", 2)
    };
    let mut input = Vec::new();
    if std::io::stdin().read_to_end(&mut input).is_err() {
        give_up("read fault\n", 4);
    }
    let (status, out, message) = answer(command, &input);
    let _ = std::io::stderr().write_all(&message);
    let mut stdout = std::io::stdout();
    if stdout.write_all(&out).and_then(|()| stdout.flush()).is_err() {
        give_up("write fault\n", 5);
    }
    exit(status.into());
}
