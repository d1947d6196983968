//! Realm Initial Measurements of confidential VMs (Arm CCA), computed from a manifest and its files in memory by the library librim.
//!
//! ```no_run
//! let manifest = b"rim_manifest = 1\n[[launch]]\nname = \"small\"\nalgo = \"sha256\"\ns2sz = 33\n";
//! let report = rim::measure(manifest, &[])?;
//! println!("{}", report.rim("small")?); // sha256 and 64 digits
//! # Ok::<(), rim::Error>(())
//! ```
//!
//! What calls share:
//!
//! - `manifest` is a manifest's bytes. Where there is a `path`, it is the one by which faults and a report as JSON call the manifest: no file is opened.
//!   A file that the manifest names by that path is the manifest itself.
//! - `files` has the bytes of each file that the manifest names, with its path as the manifest writes it, in any order. Of files of one path the first
//!   counts; what is no file of the manifest is not read. A file has at most 256 MiB.
//! - Any number of threads may be in calls at a time.
//! - A call that has no answer ends with an [`Error`].

mod answers;
mod error;
mod native;

use rim_sys::{RIM_JSON, RIM_LINES, RIM_OK, RIM_REFUSED, RIM_SHA256, RIM_SHA512};

pub use answers::{Audit, Check, Found, Launch, Map, Replay, Report, Rim};
pub use error::Error;
use native::{answer, Answer, Ask};

/// Files in memory, each with its path as the manifest writes it.
pub type Files<'a> = &'a [(&'a str, &'a [u8])];

/// The path of a manifest, or of another file, where its answer has none. No manifest names a file by it.
const PATH: &str = "";

fn text_of(bytes: Vec<u8>) -> Result<String, Error> {
    String::from_utf8(bytes).map_err(|_| Error::Unknown(RIM_OK))
}

/// The text of a launch that is accepted; else its refusal.
fn of_accepted(answer: Answer) -> Result<String, Error> {
    let text = text_of(answer.bytes)?;
    if answer.code == RIM_REFUSED {
        let refusal = Launch::of_line(text.trim_end()).and_then(|launch| launch.rim.err());
        return Err(refusal.unwrap_or(Error::Unknown(RIM_REFUSED)));
    }
    Ok(text)
}

fn check_of(answer: Answer) -> Result<Check, Error> {
    let found = match answer.code {
        RIM_OK => Found::Nothing,
        RIM_REFUSED => Found::Refused,
        _ => Found::Faulty,
    };
    Ok(Check { text: text_of(answer.bytes)?, found })
}

fn map_of(answer: Answer) -> Result<Map, Error> {
    Ok(Map { is_refused: answer.code == RIM_REFUSED, text: text_of(answer.bytes)? })
}

/// The report of all launches. One that is refused is in it, with its error; `Error::TooManyPages` where it has too many different pages.
pub fn measure(manifest: &[u8], files: Files) -> Result<Report, Error> {
    let text = text_of(answer(Ask::Measure(RIM_LINES), PATH, manifest, files)?.bytes)?;
    Report::of(text).ok_or(Error::Unknown(RIM_OK))
}

/// The report as JSON, as `rim measure --json` prints it: with the digests of the files and all that a launch is.
pub fn measure_json(path: &str, manifest: &[u8], files: Files) -> Result<String, Error> {
    text_of(answer(Ask::Measure(RIM_JSON), path, manifest, files)?.bytes)
}

/// The report that the monitor's own commands lead to, launch by launch, as `rim audit` prints it.
pub fn audit(manifest: &[u8], files: Files) -> Result<Audit, Error> {
    let text = text_of(answer(Ask::Audit, PATH, manifest, files)?.bytes)?;
    Audit::of(text).ok_or(Error::Unknown(RIM_OK))
}

/// What is wrong with the manifest, its files and its launches, as `rim check` prints it; without warnings where `quiet`.
pub fn check(path: &str, manifest: &[u8], files: Files, quiet: bool) -> Result<Check, Error> {
    check_of(answer(Ask::Check(quiet, RIM_LINES), path, manifest, files)?)
}

/// The same as JSON, as `rim check --json` prints it.
pub fn check_json(path: &str, manifest: &[u8], files: Files, quiet: bool) -> Result<Check, Error> {
    check_of(answer(Ask::Check(quiet, RIM_JSON), path, manifest, files)?)
}

/// The paths of the files that the manifest names, in its order: those that `files` has to have.
pub fn manifest_paths(manifest: &[u8]) -> Result<Vec<String>, Error> {
    let text = text_of(answer(Ask::Paths, PATH, manifest, &[])?.bytes)?;
    Ok(text.split_terminator('\0').map(String::from).collect())
}

/// The launch's measurement. A launch that is refused is an error, and so is a name that no launch has. All launches of the manifest are measured for
/// it: of more than one, take them from [`measure`].
pub fn launch_rim(manifest: &[u8], files: Files, launch: &str) -> Result<Rim, Error> {
    let Answer { code, bytes, algorithm } = answer(Ask::Rim(launch), PATH, manifest, files)?;
    let rim = match algorithm {
        RIM_SHA256 => bytes.try_into().ok().map(Rim::Sha256),
        RIM_SHA512 => bytes.try_into().ok().map(Rim::Sha512),
        _ => None,
    };
    rim.ok_or(Error::Unknown(code))
}

/// The monitor's commands, as `rim list` prints them. A launch that is refused is an error.
pub fn list_commands(manifest: &[u8], files: Files, launch: &str) -> Result<String, Error> {
    of_accepted(answer(Ask::List(launch), PATH, manifest, files)?)
}

/// The measurement after each command that extends it, as `rim trace` prints it. A launch that is refused is an error.
pub fn trace(manifest: &[u8], files: Files, launch: &str) -> Result<String, Error> {
    of_accepted(answer(Ask::Trace(launch), PATH, manifest, files)?)
}

/// Where everything lies and what is measured, as `rim map` prints it.
pub fn map(manifest: &[u8], files: Files, launch: &str) -> Result<Map, Error> {
    map_of(answer(Ask::Map(launch, RIM_LINES), PATH, manifest, files)?)
}

/// The same as JSON, as `rim map --json` prints it.
pub fn map_json(manifest: &[u8], files: Files, launch: &str) -> Result<Map, Error> {
    map_of(answer(Ask::Map(launch, RIM_JSON), PATH, manifest, files)?)
}

/// The launch's devicetree as it is placed. `Error::NoDevicetree` where it has none; a launch that is refused is an error.
pub fn dtb(manifest: &[u8], files: Files, launch: &str) -> Result<Vec<u8>, Error> {
    Ok(answer(Ask::Dtb(launch), PATH, manifest, files)?.bytes)
}

/// Whether a listing is what it says, as `rim replay` prints it. What is no listing is an answer too.
pub fn replay(listing: &[u8]) -> Result<Replay, Error> {
    let answer = answer(Ask::Replay, PATH, listing, &[])?;
    Ok(Replay { is_right: answer.code == RIM_OK, text: text_of(answer.bytes)? })
}

/// The header of an arm64 Image, as `rim image` prints it. What is no Image is an error.
pub fn image(image: &[u8]) -> Result<String, Error> {
    text_of(answer(Ask::Image, PATH, image, &[])?.bytes)
}

/// A flattened devicetree, as `rim fdt` prints it. What is none is an error.
pub fn fdt(tree: &[u8]) -> Result<String, Error> {
    text_of(answer(Ask::Fdt, PATH, tree, &[])?.bytes)
}

/// The library's version: a number, and the day of its sources' last commit in parentheses.
pub fn version() -> Result<String, Error> {
    text_of(answer(Ask::Version, PATH, &[], &[])?.bytes)
}
