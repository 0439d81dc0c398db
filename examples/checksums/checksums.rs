// In Rust without its standard library: the CRC-32 of each line of the input, and how many bytes the line has. At the end
// come the longest line, and the CRC-32 of the whole input.
#![no_std]

use core::fmt::{self, Write};
use core::panic::PanicInfo;

// The machine's calls, as examples/runtime/calls.c has them.
extern "C" {
    fn read_some(descriptor: i64, to: *mut u8, length: u64) -> i64;
    fn write_some(descriptor: i64, from: *const u8, length: u64) -> i64;
    fn _exit(code: i32) -> !;
}

/// The console. What has no room there is an error.
struct Console;

impl Write for Console {
    fn write_str(&mut self, text: &str) -> fmt::Result {
        let mut rest = text.as_bytes();
        while !rest.is_empty() {
            let taken = unsafe { write_some(1, rest.as_ptr(), rest.len() as u64) };
            if taken <= 0 {
                return Err(fmt::Error);
            }
            rest = &rest[taken as usize..];
        }
        Ok(())
    }
}

/// The bytes of the input, of which a call reads at most 64.
struct Input {
    bytes: [u8; 64],
    at: usize,
    end: usize,
}

impl Iterator for Input {
    type Item = u8;

    fn next(&mut self) -> Option<u8> {
        if self.at == self.end {
            let read = unsafe { read_some(0, self.bytes.as_mut_ptr(), self.bytes.len() as u64) };
            self.at = 0;
            self.end = read.max(0) as usize;
        }
        let byte = *self.bytes[..self.end].get(self.at)?;
        self.at += 1;
        Some(byte)
    }
}

/// A CRC-32 of so many bytes.
#[derive(Clone, Copy, Default)]
struct Sum {
    rest: u32,
    bytes: u64,
}

impl Sum {
    fn add(&mut self, byte: u8) {
        self.rest = (0..8).fold(!self.rest ^ byte as u32, |rest, _| rest >> 1 ^ (0xedb8_8320 & (rest & 1).wrapping_neg()));
        self.rest = !self.rest;
        self.bytes += 1;
    }
}

impl fmt::Display for Sum {
    fn fmt(&self, to: &mut fmt::Formatter) -> fmt::Result {
        write!(to, "{:08x} of {} bytes", self.rest, self.bytes)
    }
}

fn print(input: Input) -> fmt::Result {
    let (mut whole, mut line, mut longest) = (Sum::default(), Sum::default(), Sum::default());
    for byte in input {
        whole.add(byte);
        if byte != b'\n' {
            line.add(byte);
            continue;
        }
        writeln!(Console, "{line}")?;
        if line.bytes > longest.bytes {
            longest = line;
        }
        line = Sum::default();
    }
    writeln!(Console, "the longest line: {longest}")?;
    writeln!(Console, "all: {whole}")
}

/// 0, or 1 if the console is full.
#[no_mangle]
pub extern "C" fn main() -> i32 {
    print(Input { bytes: [0; 64], at: 0, end: 0 }).is_err() as i32
}

#[panic_handler]
fn panic(why: &PanicInfo) -> ! {
    let _ = writeln!(Console, "{why}");
    unsafe { _exit(101) }
}
