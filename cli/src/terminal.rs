//! How wide lines on standard error may be.

use std::io::{self, IsTerminal};
use std::os::fd::AsRawFd;

/// Where no terminal says otherwise.
const WIDTH: usize = 200;

/// What the system tells of a terminal's size (`struct winsize`).
#[repr(C)]
#[derive(Default)]
struct Size {
    rows: u16,
    columns: u16,
    pixels: [u16; 2],
}

/// The request for it on Linux (`TIOCGWINSZ`).
const REQUEST: std::ffi::c_ulong = 0x5413;

extern "C" {
    fn ioctl(file: std::ffi::c_int, request: std::ffi::c_ulong, ...) -> std::ffi::c_int;
}

pub fn width() -> usize {
    let error = io::stderr();
    if !error.is_terminal() {
        return WIDTH;
    }
    let mut size = Size::default();
    // SAFETY: the request writes a `struct winsize`, which `Size` is, and nothing else.
    let done = unsafe { ioctl(error.as_raw_fd(), REQUEST, &mut size as *mut Size) };
    match (done, size.columns) {
        (0, 1..) => size.columns.into(),
        _ => WIDTH,
    }
}
