//! Finds libmp4_box_codec: in the folder that `MP4_BOX_CODEC_LIB_DIR` names, else where pkg-config says, else in
//! `~/.local/lib`, `/usr/local/lib` and `/usr/lib`. It prefers the static library.

use std::env;
use std::ffi::OsString;
use std::mem;
use std::os::unix::ffi::OsStringExt;
use std::path::{Path, PathBuf};
use std::process::Command;

const FOLDER: &str = "MP4_BOX_CODEC_LIB_DIR";

/// Splits what pkg-config writes into words, as a shell does: the byte after a backslash is part of its word.
fn words_of(said: &[u8]) -> Vec<Vec<u8>> {
    let (mut words, mut word, mut is_escaped) = (Vec::new(), Vec::new(), false);
    for &byte in said {
        if !is_escaped && byte == b'\\' {
            is_escaped = true;
            continue;
        }
        if is_escaped || !byte.is_ascii_whitespace() {
            word.push(byte);
        } else {
            words.push(mem::take(&mut word));
        }
        is_escaped = false;
    }
    words.push(word);
    words
}

/// Returns the folders that pkg-config names.
fn configured() -> Vec<PathBuf> {
    let mut asked = Command::new("pkg-config");
    // Without this variable it leaves out the folder of a Debian package, since the linker searches that by itself.
    asked.args(["--libs-only-L", "mp4_box_codec"]).env("PKG_CONFIG_ALLOW_SYSTEM_LIBS", "1");
    let said = asked.output().map(|it| it.stdout).unwrap_or_default();
    let folders = words_of(&said);
    folders.iter().filter_map(|it| it.strip_prefix(b"-L")).map(|it| OsString::from_vec(it.to_vec()).into()).collect()
}

fn has(folder: &Path, ending: &str) -> bool {
    folder.join(format!("libmp4_box_codec.{ending}")).is_file()
}

fn main() {
    println!("cargo:rerun-if-env-changed={FOLDER}");
    println!("cargo:rerun-if-env-changed=PKG_CONFIG_PATH");
    let folders = match env::var_os(FOLDER) {
        Some(folder) => vec![PathBuf::from(folder)],
        None => {
            let mut folders = configured();
            folders.extend(env::var_os("HOME").map(|home| Path::new(&home).join(".local/lib")));
            folders.extend(["/usr/local/lib", "/usr/lib"].map(PathBuf::from));
            folders
        }
    };
    let found = folders.iter().find(|it| has(it, "a") || has(it, "so"));
    let folder = found.unwrap_or_else(|| {
        panic!("libmp4_box_codec is not in {folders:?}: run tools/install, or set {FOLDER} to its folder")
    });
    println!("cargo:rerun-if-changed={}", folder.display());
    println!("cargo:rustc-link-search=native={}", folder.display());
    println!("cargo:rustc-link-lib={}=mp4_box_codec", if has(folder, "a") { "static" } else { "dylib" });
}
