//! The declarations of rim.h, which says what each call answers and what a caller owes. The crate `rim` has safe calls over these.
#![allow(non_camel_case_types)]

use std::os::raw::{c_char, c_int, c_uint, c_void};

/// A file in memory: its path, as the manifest writes it, and its bytes.
#[repr(C)]
#[derive(Debug, Clone, Copy)]
pub struct rim_file {
    pub path: *const c_char,
    pub path_length: usize,
    pub bytes: *const c_void,
    pub length: usize,
}

/// What a call ends with.
pub type rim_code = c_uint;
/// How an answer is written: RIM_LINES or RIM_JSON.
pub type rim_format = c_uint;
/// The monitor's number of a hash algorithm.
pub type rim_algorithm = c_uint;

pub const RIM_OK: rim_code = 0;
pub const RIM_REFUSED: rim_code = 1;
pub const RIM_FAULTY: rim_code = 3;
pub const RIM_ROOM: rim_code = 5;
pub const RIM_LINES: rim_format = 0;
pub const RIM_JSON: rim_format = 1;
pub const RIM_SHA256: rim_algorithm = 0;
pub const RIM_SHA512: rim_algorithm = 1;

extern "C" {
    pub fn rim_measure(
        manifest: *const rim_file,
        files: *const rim_file,
        count: usize,
        format: rim_format,
        out: *mut c_void,
        room: usize,
        length: *mut usize,
    ) -> rim_code;
    pub fn rim_audit(manifest: *const rim_file, files: *const rim_file, count: usize, out: *mut c_void, room: usize, length: *mut usize) -> rim_code;
    pub fn rim_check(
        manifest: *const rim_file,
        files: *const rim_file,
        count: usize,
        quiet: c_int,
        format: rim_format,
        out: *mut c_void,
        room: usize,
        length: *mut usize,
    ) -> rim_code;
    pub fn rim_manifest_paths(manifest: *const rim_file, out: *mut c_void, room: usize, length: *mut usize) -> rim_code;
    pub fn rim_launch_rim(
        manifest: *const rim_file,
        files: *const rim_file,
        count: usize,
        launch: *const c_char,
        launch_length: usize,
        algorithm: *mut rim_algorithm,
        out: *mut c_void,
        room: usize,
        length: *mut usize,
    ) -> rim_code;
    pub fn rim_list(
        manifest: *const rim_file,
        files: *const rim_file,
        count: usize,
        launch: *const c_char,
        launch_length: usize,
        out: *mut c_void,
        room: usize,
        length: *mut usize,
    ) -> rim_code;
    pub fn rim_trace(
        manifest: *const rim_file,
        files: *const rim_file,
        count: usize,
        launch: *const c_char,
        launch_length: usize,
        out: *mut c_void,
        room: usize,
        length: *mut usize,
    ) -> rim_code;
    pub fn rim_map(
        manifest: *const rim_file,
        files: *const rim_file,
        count: usize,
        launch: *const c_char,
        launch_length: usize,
        format: rim_format,
        out: *mut c_void,
        room: usize,
        length: *mut usize,
    ) -> rim_code;
    pub fn rim_dtb(
        manifest: *const rim_file,
        files: *const rim_file,
        count: usize,
        launch: *const c_char,
        launch_length: usize,
        out: *mut c_void,
        room: usize,
        length: *mut usize,
    ) -> rim_code;
    pub fn rim_replay(listing: *const rim_file, out: *mut c_void, room: usize, length: *mut usize) -> rim_code;
    pub fn rim_image(image: *const rim_file, out: *mut c_void, room: usize, length: *mut usize) -> rim_code;
    pub fn rim_fdt(tree: *const rim_file, out: *mut c_void, room: usize, length: *mut usize) -> rim_code;
    pub fn rim_version(out: *mut c_void, room: usize, length: *mut usize) -> rim_code;
}
