//! Points the compiler at the original's files where they lie; none of them is copied.
//!
//! The folder is ORIGINAL_SRC, or ../shared/docs/src seen from the repository's root. A path in a
//! `#[path]` must stand in the source, so two small files of module lines are written to OUT_DIR,
//! and src/lib.rs includes them.

use std::env;
use std::fs;
use std::path::{Path, PathBuf};

/// Modules at the crate's root. chunk_io/mod.rs names its own files.
const AT_THE_ROOT: [(&'static str, &'static str); 2] =
    [("time", "time.rs"), ("chunk_io", "chunk_io/mod.rs")];

/// Modules inside `messages`, whose own mod.rs is not among the files.
const MESSAGES: [(&'static str, &'static str); 1] =
    [("message_payload", "messages/message_payload.rs")];

/// Modules inside `messages::types`; types/mod.rs names bodies that are not among the files.
const TYPES: [(&'static str, &'static str); 4] = [
    ("abort", "messages/types/abort.rs"),
    ("set_chunk_size", "messages/types/set_chunk_size.rs"),
    ("set_peer_bandwidth", "messages/types/set_peer_bandwidth.rs"),
    ("user_control", "messages/types/user_control.rs"),
];

fn main() {
    println!("cargo:rerun-if-env-changed=ORIGINAL_SRC");
    println!("cargo:rerun-if-changed=build.rs");

    let original = original_folder();
    let out = PathBuf::from(env::var("OUT_DIR").expect("cargo sets OUT_DIR"));
    write_modules(&original, &AT_THE_ROOT, &out.join("root.rs"));
    write_modules(&original, &MESSAGES, &out.join("messages.rs"));
    write_modules(&original, &TYPES, &out.join("types.rs"));
}

fn original_folder() -> PathBuf {
    let here = PathBuf::from(env::var("CARGO_MANIFEST_DIR").expect("cargo sets it"));
    let root = here.join("../../..");
    let folder = env::var("ORIGINAL_SRC").unwrap_or("../shared/docs/src".to_string());
    let folder = root.join(folder);
    fs::canonicalize(&folder)
        .unwrap_or_else(|e| panic!("the original's folder {}: {}", folder.display(), e))
}

fn write_modules(original: &Path, modules: &[(&str, &str)], target: &Path) {
    let mut text = String::new();
    for &(name, file) in modules {
        let path = original.join(file);
        text += &format!("#[path = {:?}]\npub mod {};\n", path.display().to_string(), name);
    }
    fs::write(target, text).expect("OUT_DIR can be written");
}
