//! Finds librim: in the folder that RIM_LIBRARY_DIR names, which has librim.so.0; else as pkg-config says of `rim`; else where the linker looks.

use std::env;
use std::os::unix::fs::symlink;
use std::path::{Path, PathBuf};
use std::process::Command;

fn main() {
    println!("cargo:rerun-if-changed=build.rs");
    println!("cargo:rerun-if-env-changed=RIM_LIBRARY_DIR");
    println!("cargo:rerun-if-env-changed=PKG_CONFIG_PATH");
    match env::var_os("RIM_LIBRARY_DIR") {
        Some(folder) => link_to(Path::new(&folder)),
        None => println!("{}", packaged().unwrap_or_else(|| "cargo:rustc-link-lib=dylib=rim".into())),
    }
}

/// Links the library of a folder. The links that the linker and the loader need are made in OUT_DIR, since cargo lets programs that it starts look
/// there.
fn link_to(folder: &Path) {
    let library = folder.join("librim.so.0");
    let library = library.canonicalize().unwrap_or_else(|why| panic!("RIM_LIBRARY_DIR: {}: {}", library.display(), why));
    let out = PathBuf::from(env::var_os("OUT_DIR").expect("cargo sets OUT_DIR"));
    for name in ["librim.so", "librim.so.0"] {
        let link = out.join(name);
        let _ = std::fs::remove_file(&link);
        symlink(&library, &link).unwrap_or_else(|why| panic!("{}: {}", link.display(), why));
    }
    println!("cargo:rerun-if-changed={}", library.display());
    println!("cargo:rustc-link-search=native={}", out.display());
    println!("cargo:rustc-link-lib=dylib=rim");
}

/// What pkg-config says of `rim`, as cargo's instructions; nothing where it does not know it.
fn packaged() -> Option<String> {
    let ran = Command::new("pkg-config").args(["--libs", "rim"]).output().ok()?;
    let said = String::from_utf8(ran.stdout).ok()?;
    let lines = said.split_whitespace().filter_map(|word| match word.split_at(2.min(word.len())) {
        ("-L", folder) => Some(format!("cargo:rustc-link-search=native={}", folder)),
        ("-l", name) => Some(format!("cargo:rustc-link-lib={}", name)),
        _ => None,
    });
    let lines: Vec<String> = lines.collect();
    (ran.status.success() && !lines.is_empty()).then(|| lines.join("\n"))
}
