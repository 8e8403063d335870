//! Finds the static library: SLIDER_LIB, the archive itself or its folder (absolute, or seen from here); else ../target/staticlib. And
//! tells the package what it is made from (src/identity.rs).
use std::fs::{self, File};
use std::path::{Path, PathBuf};
use std::process::{self, Command};
use std::{env, io};

const ARCHIVE: &str = "libslider.a";
/// Beside the archive: its SHA-256, and the kit that made it. rust/library writes it.
const NOTE: &str = "libslider.made";

fn main() {
    println!("cargo:rerun-if-changed=build.rs");
    println!("cargo:rerun-if-env-changed=SLIDER_LIB");
    println!("cargo:rerun-if-env-changed=SLIDER_COMMIT");

    let target = env::var("TARGET").unwrap();
    if !target.starts_with("x86_64-") {
        stop(format!(
            "The proved library is for x86-64, and this build is for {target}.\n\
             Use rust/run, rust/test or rust/cross/cargo, which compile for x86-64 and run under an emulator."
        ));
    }
    let archive = archive();
    let folder = archive.parent().unwrap();
    println!("cargo:rerun-if-changed={}", archive.display());
    println!("cargo:rustc-link-search=native={}", folder.display());
    println!("cargo:rustc-link-lib=static=slider");
    println!("cargo:rustc-env=SLIDER_ARCHIVE={}", archive.display()); // for the tests that link it with C

    let library = sha256(&archive).unwrap_or_else(|_| unknown());
    let kit = kit(&folder.join(NOTE), &library).unwrap_or_else(unknown);
    let commit = env::var("SLIDER_COMMIT").ok().filter(|commit| is_plain(commit)).unwrap_or_else(unknown);
    println!("cargo:rustc-env=SLIDER_MADE_COMMIT={commit}");
    println!("cargo:rustc-env=SLIDER_MADE_KIT={kit}");
    println!("cargo:rustc-env=SLIDER_MADE_LIBRARY={library}");
}

fn stop(message: String) -> ! {
    eprintln!("\n{message}\n");
    process::exit(1)
}

fn unknown() -> String {
    "unknown".to_string()
}

fn archive() -> PathBuf {
    let here = PathBuf::from(env::var("CARGO_MANIFEST_DIR").unwrap());
    let given = env::var_os("SLIDER_LIB").filter(|path| !path.is_empty()).map(PathBuf::from);
    let path = given.unwrap_or_else(|| here.join("../target/staticlib"));
    let archive = if path.is_dir() { path.join(ARCHIVE) } else { path };
    archive.canonicalize().ok().filter(|path| path.is_file() && path.ends_with(ARCHIVE)).unwrap_or_else(|| {
        stop(format!(
            "No static library {}.\n\
             Run rust/library, which proves it and writes target/staticlib/{ARCHIVE},\n\
             or set SLIDER_LIB to such an archive or to its folder.",
            archive.display()
        ))
    })
}

/// By the command of the same name.
fn sha256(path: &Path) -> io::Result<String> {
    let output = Command::new("sha256sum").stdin(File::open(path)?).output()?;
    let text = String::from_utf8_lossy(&output.stdout).into_owned();
    let digest = text.split(' ').next().unwrap_or_default();
    let readable = digest.len() == 64 && digest.bytes().all(|byte| byte.is_ascii_hexdigit());
    readable.then(|| digest.to_string()).ok_or_else(|| io::ErrorKind::InvalidData.into())
}

/// What a note says of the kit, if it is of this archive.
fn kit(note: &Path, library: &str) -> Option<String> {
    let text = fs::read_to_string(note).ok()?;
    println!("cargo:rerun-if-changed={}", note.display());
    let line = |name: &str| text.lines().find_map(|line| line.strip_prefix(name));
    let kit = line("kit ").filter(|kit| is_plain(kit))?;
    (line("sha256 ")? == library).then(|| kit.to_string())
}

/// A line of ASCII.
fn is_plain(text: &str) -> bool {
    !text.is_empty() && text.bytes().all(|byte| byte.is_ascii_graphic() || byte == b' ')
}
