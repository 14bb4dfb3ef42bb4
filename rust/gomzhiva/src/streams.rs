//! Standard input and output, and whether they were open at all: Rust's own start puts /dev/null in the place of closed ones.

use std::fmt::Display;
use std::io::{self, Read, Write};
use std::sync::atomic::{AtomicBool, Ordering};

static INPUT_OPEN: AtomicBool = AtomicBool::new(false);
static OUTPUT_OPEN: AtomicBool = AtomicBool::new(false);

/// Runs before Rust's own start, as Linux runs what stands in this section of a program.
#[used]
#[link_section = ".init_array"]
static LOOK: extern "C" fn() = look;

extern "C" fn look() {
    INPUT_OPEN.store(is_open(0), Ordering::Relaxed);
    OUTPUT_OPEN.store(is_open(1), Ordering::Relaxed);
    // A limit on the size of files fails a write, as a full disk does, and does not end the program.
    // SAFETY: a signal that is ignored runs no code.
    unsafe { libc::signal(libc::SIGXFSZ, libc::SIG_IGN) };
}

fn is_open(number: i32) -> bool {
    // SAFETY: this call changes nothing, and answers for any number, open or not.
    unsafe { libc::fcntl(number, libc::F_GETFD) != -1 }
}

/// The system's word for a stream that was closed.
fn closed() -> io::Error {
    io::Error::from_raw_os_error(libc::EBADF)
}

/// Reads standard input to its end, or to `most` bytes.
pub fn read(most: u64) -> io::Result<Vec<u8>> {
    if !INPUT_OPEN.load(Ordering::Relaxed) {
        return Err(closed());
    }
    let mut bytes = Vec::new();
    io::stdin().lock().take(most).read_to_end(&mut bytes)?;
    Ok(bytes)
}

/// Writes all bytes to standard output.
pub fn write(bytes: &[u8]) -> io::Result<()> {
    if !OUTPUT_OPEN.load(Ordering::Relaxed) {
        return Err(closed());
    }
    let mut output = io::stdout().lock();
    output.write_all(bytes)?;
    output.flush()
}

/// Tells something on standard error. Where that is closed nobody can be told; the exit status remains.
pub fn tell(message: impl Display) {
    // In one piece, so that what several processes tell is not mixed up.
    let _ = io::stderr().write_all(format!("{message}\n").as_bytes());
}
