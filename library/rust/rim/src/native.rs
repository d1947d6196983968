//! The calls of librim. All that is unsafe is here.

use std::os::raw::{c_char, c_int, c_void};

use rim_sys as sys;

use crate::Error;

/// The first room of an answer, in bytes. The system gives no memory for what is not written to, so it costs little.
const FIRST_ROOM: usize = 16 << 20;

/// What is asked of a manifest and its files, of one launch by its name, or of a file by itself.
#[derive(Clone, Copy)]
pub enum Ask<'a> {
    Measure(sys::rim_format),
    Audit,
    Check(bool, sys::rim_format),
    Paths,
    Rim(&'a str),
    List(&'a str),
    Trace(&'a str),
    Map(&'a str, sys::rim_format),
    Dtb(&'a str),
    Replay,
    Image,
    Fdt,
    Version,
}

/// What a call answers: RIM_OK, RIM_REFUSED or RIM_FAULTY, the bytes, and of `Ask::Rim` the algorithm.
pub struct Answer {
    pub code: sys::rim_code,
    pub bytes: Vec<u8>,
    pub algorithm: sys::rim_algorithm,
}

/// A file in memory, as the library has it. It may be used as long as what it is of.
fn lent(path: &str, bytes: &[u8]) -> sys::rim_file {
    sys::rim_file { path: path.as_ptr().cast(), path_length: path.len(), bytes: bytes.as_ptr().cast(), length: bytes.len() }
}

/// Asks a file, and the files that it names. Where the answer has no room, it is asked again with as much as it then says.
pub fn answer(ask: Ask, path: &str, bytes: &[u8], files: &[(&str, &[u8])]) -> Result<Answer, Error> {
    let subject = lent(path, bytes);
    let files: Vec<sys::rim_file> = files.iter().map(|(path, bytes)| lent(path, bytes)).collect();
    let mut room = FIRST_ROOM;
    loop {
        let mut out: Vec<u8> = Vec::new();
        out.try_reserve_exact(room).map_err(|_| Error::NoMemory)?;
        let (mut length, mut algorithm) = (0, 0);
        let code = call(ask, &subject, &files, &mut out, &mut length, &mut algorithm);
        match code {
            sys::RIM_OK | sys::RIM_REFUSED | sys::RIM_FAULTY if length <= out.capacity() => {
                // SAFETY: the answer has `length` bytes, which is no more than the capacity, and the library has written them all.
                unsafe { out.set_len(length) };
                out.shrink_to_fit();
                return Ok(Answer { code, bytes: out, algorithm });
            }
            sys::RIM_ROOM if length > room => room = length,
            _ => return Err(Error::of_code(code)),
        }
    }
}

/// One call, whose answer goes into the capacity of `out`.
fn call(
    ask: Ask,
    subject: &sys::rim_file,
    files: &[sys::rim_file],
    out: &mut Vec<u8>,
    length: &mut usize,
    algorithm: &mut sys::rim_algorithm,
) -> sys::rim_code {
    let (first, count) = (files.as_ptr(), files.len());
    let (out, room): (*mut c_void, usize) = (out.as_mut_ptr().cast(), out.capacity());
    let name = |launch: &str| -> (*const c_char, usize) { (launch.as_ptr().cast(), launch.len()) };
    // SAFETY: rim.h says what a caller owes. Each pointer is of a reference that is borrowed until the call returns, with the length beside it, and a
    // slice's pointer is never null; `out` may be written to up to its capacity; what is written to is borrowed mutably, so that it overlaps nothing.
    unsafe {
        match ask {
            Ask::Measure(format) => sys::rim_measure(subject, first, count, format, out, room, length),
            Ask::Audit => sys::rim_audit(subject, first, count, out, room, length),
            Ask::Check(quiet, format) => sys::rim_check(subject, first, count, c_int::from(quiet), format, out, room, length),
            Ask::Paths => sys::rim_manifest_paths(subject, out, room, length),
            Ask::Rim(launch) => sys::rim_launch_rim(subject, first, count, name(launch).0, name(launch).1, algorithm, out, room, length),
            Ask::List(launch) => sys::rim_list(subject, first, count, name(launch).0, name(launch).1, out, room, length),
            Ask::Trace(launch) => sys::rim_trace(subject, first, count, name(launch).0, name(launch).1, out, room, length),
            Ask::Map(launch, format) => sys::rim_map(subject, first, count, name(launch).0, name(launch).1, format, out, room, length),
            Ask::Dtb(launch) => sys::rim_dtb(subject, first, count, name(launch).0, name(launch).1, out, room, length),
            Ask::Replay => sys::rim_replay(subject, out, room, length),
            Ask::Image => sys::rim_image(subject, out, room, length),
            Ask::Fdt => sys::rim_fdt(subject, out, room, length),
            Ask::Version => sys::rim_version(out, room, length),
        }
    }
}
