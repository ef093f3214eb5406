//! Standard input to a pipe in pieces of so many bytes, each of which is read before the next one is written: so that whoever reads gets no two in one.
//!
//!     pieces BYTES <TEXT | COMMAND

use std::env::args;
use std::ffi::{c_int, c_short, c_ulong};
use std::fs::File;
use std::io::{self, Read, Write};
use std::os::fd::FromRawFd;
use std::thread::sleep;
use std::time::Duration;

#[repr(C)]
struct Polled {
    descriptor: c_int,
    events: c_short,
    met: c_short,
}

extern "C" {
    fn ioctl(descriptor: c_int, request: c_ulong, ...) -> c_int;
    fn poll(polled: *mut Polled, many: c_ulong, milliseconds: c_int) -> c_int;
}

const STANDARD_OUTPUT: c_int = 1;
/// Linux: how many bytes of a pipe are unread; that nobody is left to read them.
const FIONREAD: c_ulong = 0x541b;
const POLLERR: c_short = 8;

fn unread() -> c_int {
    let mut bytes: c_int = 0;
    // SAFETY: the request writes one number
    let answer = unsafe { ioctl(STANDARD_OUTPUT, FIONREAD, &mut bytes) };
    assert_eq!(answer, 0, "standard output is no pipe");
    bytes
}

fn reader_gone() -> bool {
    let mut polled = Polled { descriptor: STANDARD_OUTPUT, events: 0, met: 0 };
    // SAFETY: one entry is there
    unsafe { poll(&mut polled, 1, 0) };
    polled.met & POLLERR != 0
}

fn main() -> io::Result<()> {
    let bytes: usize = args().nth(1).and_then(|word| word.parse().ok()).expect("usage: pieces BYTES");
    let mut text = vec![];
    io::stdin().read_to_end(&mut text)?;
    // SAFETY: nothing else writes there; and no buffer parts a piece at its newlines
    let mut pipe = unsafe { File::from_raw_fd(STANDARD_OUTPUT) };
    for piece in text.chunks(bytes) {
        // a reader that has met a refusal goes away
        if pipe.write_all(piece).is_err() {
            break;
        }
        while unread() > 0 && !reader_gone() {
            sleep(Duration::from_micros(10));
        }
    }
    Ok(())
}
