//! `launch ALGO FILE BLOCKS`: hashes what a launch hashes that has a file in its RAM, which is so many blocks. That is the pages of the
//! file, and a chain of a page for the realm and a descriptor for each block and each page. The descriptors have the measurement before
//! them and the page's digest, and are else zero. It prints the time on standard error, in nanoseconds.
use sha2::{Digest, Sha256, Sha512};
use std::io::Write;
use std::time::Instant;

fn launch<H: Digest>(bytes: &[u8], blocks: usize) -> Vec<u8> {
    let digests: Vec<Vec<u8>> = bytes.chunks(4096).map(|page| H::digest(page).to_vec()).collect();
    let mut rim = H::digest([0; 4096]).to_vec();
    for at in 0..blocks + digests.len() {
        let mut descriptor = [0; 256];
        descriptor[16..16 + rim.len()].copy_from_slice(&rim);
        if at >= blocks {
            let digest = &digests[at - blocks];
            descriptor[88..88 + digest.len()].copy_from_slice(digest);
        }
        rim = H::digest(descriptor).to_vec();
    }
    rim
}

fn main() {
    let words: Vec<String> = std::env::args().collect();
    let bytes = std::fs::read(&words[2]).expect("the file can be read");
    let blocks = words[3].parse().expect("a number of blocks");
    let begin = Instant::now();
    let rim = match words[1].as_str() {
        "sha256" => launch::<Sha256>(&bytes, blocks),
        _ => launch::<Sha512>(&bytes, blocks),
    };
    let time = begin.elapsed().as_nanos();
    std::io::stdout().write_all(&rim).expect("the output can be written");
    eprintln!("{time}");
}
