//! Takes the proved library as the assembly text that comes with this package, `dist/MACHINE.s`. Where the variable `FADRINZO_LIB` names
//! an archive or an object file of the exports, that is linked in its place. In the repository, where the text is not written yet,
//! it is the archive that `tools/archive.py` makes.
//!
//! What makes no code needs none of these: `cargo check`, `cargo doc`, clippy, rust-analyzer. So this script does not stop. It hands a
//! sentence to `src/ffi.rs`, which stops the build where code is made.

use std::path::{Path, PathBuf};
use std::{env, fs};

/// The calls that the package declares.
const DECLARED: &str = include_str!("src/ffi.rs");

/// How the names of the exports begin.
const PREFIX: &str = "overlay_c_";

/// What `tools/archive.py` makes.
const MADE: &str = "../crates/overlay_c/out/libfadrinzo_exports.a";

fn main() {
    println!("cargo:rerun-if-changed=build.rs");
    println!("cargo:rerun-if-changed=src/ffi.rs");
    println!("cargo:rerun-if-env-changed=FADRINZO_LIB");
    println!("cargo:rustc-check-cfg=cfg(shipped)");
    let here = PathBuf::from(env::var("CARGO_MANIFEST_DIR").expect("cargo sets it"));
    let made = here.join(MADE);
    let taken = match env::var_os("FADRINZO_LIB") {
        Some(given) => link(&here.join(given)).map_err(|fault| format!("FADRINZO_LIB: {fault}.")),
        None => match shipped(&here) {
            Err(_) if made.is_file() => link(&made).map_err(|fault| format!("{fault}.")),
            taken => taken,
        },
    };
    if let Err(sentence) = taken {
        println!("cargo:rustc-env=FADRINZO_FAULT={sentence}");
    }
}

/// Has the package take the text for the machine that is compiled for.
fn shipped(here: &Path) -> Result<(), String> {
    let is = |name: &str| env::var(format!("CARGO_CFG_TARGET_{name}")).unwrap_or_default();
    let target = format!("{}-{}", is("ARCH"), is("OS"));
    let text = here.join(format!("dist/{target}.s"));
    println!("cargo:rerun-if-changed={}", text.display());
    if is("POINTER_WIDTH") != "64" || is("ENDIAN") != "little" || !text.is_file() {
        return Err(format!(
            "there is no {}: this package comes with the proved library for x86_64-linux. The variable FADRINZO_LIB can name \
             an archive of it, as `python3 tools/archive.py` of the repository makes it with the Rattle toolchain.",
            text.display()
        ));
    }
    println!("cargo:rustc-cfg=shipped");
    println!("cargo:rustc-env=FADRINZO_TEXT={}", text.display());
    Ok(())
}

/// Has cargo link an archive or an object file.
fn link(file: &Path) -> Result<(), String> {
    println!("cargo:rerun-if-changed={}", file.display());
    let bytes = fs::read(file).map_err(|error| format!("{} cannot be read ({error})", file.display()))?;
    let archive = archive_of(&bytes).map_err(|fault| format!("{} {fault}", file.display()))?;
    let folder = PathBuf::from(env::var("OUT_DIR").expect("cargo sets it"));
    fs::write(folder.join("libfadrinzo_given.a"), archive).map_err(|error| error.to_string())?;
    println!("cargo:rustc-link-search=native={}", folder.display());
    println!("cargo:rustc-link-lib=static=fadrinzo_given");
    Ok(())
}

/// An archive of the bytes of a file, which is one, or an object file; or what is wrong with it.
pub fn archive_of(bytes: &[u8]) -> Result<Vec<u8>, String> {
    let is_archive = bytes.starts_with(b"!<arch>\n");
    if !is_archive && !bytes.starts_with(b"\x7fELF") {
        return Err("is no archive and no object file".into());
    }
    let names = names_in(bytes);
    if let Some(name) = exports().find(|name| !names.contains(&name.as_bytes())) {
        return Err(format!("is of another version: it lacks {name}"));
    }
    if is_archive {
        return Ok(bytes.to_vec());
    }
    let header = format!("{:<16}{:<12}{:<6}{:<6}{:<8}{:<10}`\n", "given.o/", 0, 0, 0, 644, bytes.len());
    let mut archive = [b"!<arch>\n", header.as_bytes(), bytes].concat();
    archive.resize(archive.len().next_multiple_of(2), b'\n');
    Ok(archive)
}

/// The names of the exports that the package calls.
pub fn exports() -> impl Iterator<Item = &'static str> {
    let declared = DECLARED.match_indices(PREFIX).filter(|&(at, _)| DECLARED[..at].ends_with("    fn "));
    declared.filter_map(|(at, _)| DECLARED[at..].split('(').next())
}

/// The names of exports in tables of symbols. One may be the end of another name, as of `.text.overlay_c_new`.
fn names_in(bytes: &[u8]) -> Vec<&[u8]> {
    let is_part = |byte: &u8| byte.is_ascii_alphanumeric() || *byte == b'_';
    let starts = bytes.windows(PREFIX.len()).enumerate().filter(|(_, window)| *window == PREFIX.as_bytes());
    let names = starts.filter(|&(at, _)| at == 0 || !is_part(&bytes[at - 1])).map(|(at, _)| {
        let rest = &bytes[at..];
        (rest, rest.iter().position(|byte| !is_part(byte)).unwrap_or(rest.len()))
    });
    names.filter(|(rest, len)| rest.get(*len) == Some(&0)).map(|(rest, len)| &rest[..len]).collect()
}
