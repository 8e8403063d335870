//! Builds the original from the folder that CHESS_SRC names, its modules unchanged, and finds the static library.
//!
//! 1. rand_core, rand (feature small_rng) and rand_pcg are compiled from Debian's sources, with rustc alone: no registry.
//! 2. For each SmallRng the original's gen_tables are compiled into a program (original/generate.rs) and run; it writes the crate's
//!    own text of its tables, which src/images.rs reads.
//! 3. magic_gen.rs, which src/magic.rs includes, is that text (with rand 0.8.5's SmallRng) and empty constants for the tables whose
//!    generators are not at hand.
//! 4. The crate `original` is all these modules, named by #[path], in the original's edition and with BMI2, so that the *_bmi look-ups
//!    are compiled. fingerprint.txt says what the files were.
use std::env;
use std::fs;
use std::path::{Path, PathBuf};
use std::process::{exit, Command};

const PLAIN: [&str; 7] = ["bitboard", "color", "error", "file", "piece", "rank", "square"];
/// Seeds of the original with SplitMix64. With 3070 the last slot of a range decides a place; the last two leave slots that no question hits.
const SPLITMIX: [u64; 4] = [42, 3_070, 0xAEA0_B056_15E9_7B6C, 0x6FD4_CE64_C83F_5143];
const GENERATORS: [&str; 4] = ["bmis", "magic", "magic_helpers", "rays"];

fn stop(message: String) -> ! {
    eprintln!("\n{message}\n");
    exit(1)
}

fn var(name: &str) -> Option<PathBuf> {
    println!("cargo:rerun-if-env-changed={name}");
    env::var_os(name).filter(|v| !v.is_empty()).map(PathBuf::from)
}

fn watched(path: PathBuf) -> PathBuf {
    println!("cargo:rerun-if-changed={}", path.display());
    path
}

struct Build {
    rustc: String,
    target: String,
    linker: Option<String>,
    runner: PathBuf,
    out: PathBuf,
}

impl Build {
    /// Compiles one crate for the target (a macro: for the host) into the folder `to`; `links`: names and files of crates.
    fn crate_(&self, kind: &str, name: &str, root: &Path, to: &Path, links: &[(&str, PathBuf)], more: &[&str]) -> PathBuf {
        let mut c = Command::new(&self.rustc);
        c.arg(root).args(["--crate-type", kind, "--crate-name", name, "--edition", "2018", "-O", "--cap-lints", "allow"]);
        c.env("OUT_DIR", &self.out).arg("--out-dir").arg(to);
        if kind == "proc-macro" {
            c.args(["--extern", "proc_macro"]);
        } else {
            c.args(["--target", &self.target]);
            if let Some(l) = &self.linker {
                c.arg(format!("-Clinker={l}"));
            }
        }
        for (name, file) in links {
            c.arg("--extern").arg(format!("{name}={}", file.display()));
            c.arg(format!("-Ldependency={}", file.parent().unwrap().display()));
        }
        c.args(more);
        match c.status() {
            Ok(s) if s.success() => {}
            Ok(s) => stop(format!("rustc failed on {name} ({}): {s}", root.display())),
            Err(e) => stop(format!("cannot start {}: {e}", self.rustc)),
        }
        match kind {
            "rlib" => to.join(format!("lib{name}.rlib")),
            "proc-macro" => to.join(format!("lib{name}.so")),
            _ => to.join(name),
        }
    }

    fn run(&self, program: &Path, arg: &Path, seed: &str) {
        let mut c = Command::new(&self.runner);
        match c.env("SEED", seed).arg(program).arg(arg).status() {
            Ok(s) if s.success() => {}
            Ok(s) => stop(format!("{} stopped: {s}", program.display())),
            Err(e) => stop(format!("cannot start {}: {e}", self.runner.display())),
        }
    }

    fn folder(&self, name: &str) -> PathBuf {
        let folder = self.out.join(name);
        fs::create_dir_all(&folder).unwrap();
        folder
    }
}

fn main() {
    println!("cargo:rerun-if-changed=build.rs");
    println!("cargo:rerun-if-changed=original");
    println!("cargo:rerun-if-changed=src/clock.rs"); // which original/generate.rs names
    let here = PathBuf::from(env::var("CARGO_MANIFEST_DIR").unwrap());
    let beside = here.join("original");
    let b = Build {
        rustc: env::var("RUSTC").unwrap(),
        target: env::var("TARGET").unwrap(),
        linker: env::var("RUSTC_LINKER").ok(),
        runner: here.join("../cross/runner"),
        out: PathBuf::from(env::var("OUT_DIR").unwrap()),
    };
    if !b.target.starts_with("x86_64-") {
        stop(format!("The library and the original are for x86-64, not {}: use rust/compare/run.", b.target));
    }
    println!("cargo:rustc-env=COMPARE_RUNNER={}", b.runner.display());
    library(&here);

    // ---- rand, from Debian's sources, with four generators under the name SmallRng
    let unpacked = var("XRUST").unwrap_or(here.join("../cross/unpacked")).join("usr/share/cargo/registry");
    let debian = PathBuf::from("/usr/share/cargo/registry");
    let registry = var("RAND_SRC").unwrap_or(if unpacked.is_dir() { unpacked } else { debian });
    let source = |name: &str, version: &str| newest(&registry, name, version);
    let (deps, small) = (b.folder("deps"), "--cfg=feature=\"small_rng\"");
    let core = ("rand_core", b.crate_("rlib", "rand_core", &source("rand_core", "0.6").join("lib.rs"), &deps, &[], &[]));
    let pcg = (
        "rand_pcg",
        b.crate_("rlib", "rand_pcg", &source("rand_pcg", "0.3").join("lib.rs"), &deps, std::slice::from_ref(&core), &[]),
    );
    let text = source("rand", "0.8");
    let rand = |folder: &str, root: &Path, links: &[(&str, PathBuf)]| {
        b.crate_("rlib", "rand", root, &b.folder(folder), links, &[small, &format!("-Cmetadata={folder}")])
    };
    let real = rand("rand085", &text.join("lib.rs"), std::slice::from_ref(&core));
    let as_pcg = rand("pcg64mcg", &beside.join("rand_pcg.rs"), &[core.clone(), pcg, ("real", real.clone())]);
    let as_splitmix = rand("splitmix", &beside.join("rand_splitmix.rs"), &[core.clone(), ("real", real.clone())]);
    let narrow = b.out.join("narrow");
    narrowed(&text, &narrow);
    let as_narrow = rand("rand085_32bit", &narrow.join("lib.rs"), std::slice::from_ref(&core));

    // ---- the original's generators, one program for each, and their texts
    let src = original();
    let failure = ("failure", b.crate_("proc-macro", "failure", &beside.join("failure.rs"), &b.folder("host"), &[], &[]));
    let generators = modules(&src, false);
    fs::write(b.out.join("generators.rs"), &generators).unwrap();
    let rands = [("rand085", &real), ("pcg64mcg", &as_pcg), ("rand085_32bit", &as_narrow), ("splitmix", &as_splitmix)];
    for (name, rand) in rands {
        let links = [failure.clone(), ("rand", rand.clone()), core.clone(), ("real", real.clone())];
        let program = b.crate_("bin", "generate", &beside.join("generate.rs"), &b.folder(name), &links, &[]);
        if name != "splitmix" {
            b.run(&program, &b.out.join(format!("tables_{name}.rs")), "");
            continue;
        }
        for seed in SPLITMIX {
            b.run(&program, &b.out.join(format!("tables_splitmix_{seed}.rs")), &seed.to_string());
        }
    }
    let text = |seed| format!("({seed}, include_str!(\"tables_splitmix_{seed}.rs\"))");
    fs::write(b.out.join("splitmix.rs"), format!("[{}]", SPLITMIX.map(text).join(", "))).unwrap();

    // ---- the crate `original`
    let tables = fs::read_to_string(b.out.join("tables_rand085.rs")).unwrap();
    fs::write(b.out.join("magic_gen.rs"), tables + &fs::read_to_string(beside.join("absent.txt")).unwrap()).unwrap();
    fs::write(b.out.join("original.rs"), modules(&src, true)).unwrap();
    let links = [failure, ("rand", real), core];
    b.crate_("rlib", "original", &b.out.join("original.rs"), &b.folder("linked"), &links, &["-Ctarget-feature=+bmi2"]);
    for folder in ["linked", "rand085", "deps", "host"] {
        println!("cargo:rustc-link-search=dependency={}", b.out.join(folder).display());
    }
    println!("cargo:rustc-link-search=crate={}", b.out.join("linked").display());
}

/// SLIDER_LIB, the archive itself or its folder; else target/staticlib of the repository.
fn library(here: &Path) {
    let path = var("SLIDER_LIB").unwrap_or(here.join("../../target/staticlib"));
    let archive = watched(if path.is_dir() { path.join("libslider.a") } else { path });
    if !archive.is_file() || archive.file_name() != Some("libslider.a".as_ref()) {
        stop(format!(
            "No libslider.a at {}: run rust/library, or set SLIDER_LIB.",
            archive.display()
        ));
    }
    println!("cargo:rustc-link-search=native={}", archive.canonicalize().unwrap().parent().unwrap().display());
    println!("cargo:rustc-link-lib=static=slider");
}

/// The original's folder src: CHESS_SRC, or src in it.
fn original() -> PathBuf {
    let Some(given) = var("CHESS_SRC") else { stop("Set CHESS_SRC to the folder src of chess 3.2.0.".into()) };
    [given.clone(), given.join("src")].into_iter().find(|f| f.join("bitboard.rs").is_file()).unwrap_or_else(|| {
        stop(format!("No bitboard.rs in {}, nor in its src: CHESS_SRC names the folder src of chess 3.2.0.", given.display()))
    })
}

/// A text that names the original's files as modules; `all`: with src/magic.rs, and their fingerprint is written.
fn modules(src: &Path, all: bool) -> String {
    let src = src.canonicalize().unwrap();
    let mut print = String::new();
    let mut module = |name: &str, path: String| {
        let file = watched(src.join(&path));
        let text = fs::read(&file).unwrap_or_else(|e| stop(format!("{}: {e}", file.display())));
        let fnv = text.iter().fold(0xcbf2_9ce4_8422_2325u64, |h, c| (h ^ *c as u64).wrapping_mul(0x100_0000_01b3));
        print += &format!("  {path:<28} {:>6} bytes  fnv {fnv:016X}\n", text.len());
        format!("#[path = {file:?}] pub mod {name};\n")
    };
    let mut list = String::new();
    for name in PLAIN {
        list += &module(name, format!("{name}.rs"));
    }
    list += "pub mod gen_tables {\n";
    for name in GENERATORS {
        list += &module(name, format!("gen_tables/{name}.rs"));
    }
    list += "}\n";
    if all {
        list += &module("magic", "magic.rs".into());
        fs::write(PathBuf::from(env::var("OUT_DIR").unwrap()).join("fingerprint.txt"), print).unwrap();
    }
    list
}

/// The folder src of the newest NAME-VERSION.z of a Debian registry.
fn newest(registry: &Path, name: &str, version: &str) -> PathBuf {
    let begins = format!("{name}-{version}.");
    let folders = fs::read_dir(registry).into_iter().flatten().filter_map(|e| e.ok()).map(|e| e.path());
    let found = folders.filter(|p| p.file_name().unwrap().to_string_lossy().starts_with(&begins)).max();
    watched(found.unwrap_or_else(|| {
        stop(format!(
            "No {name}-{version} in {}: run rust/cross/setup, or install Debian's librust-rand-dev and librust-rand-pcg-dev,\n\
             or set RAND_SRC to a folder that has their sources.",
            registry.display()
        ))
    }))
    .join("src")
}

/// rand as it is on a machine of 32 bits: its own text, with its test of the pointer width answered no.
fn narrowed(from: &Path, to: &Path) {
    const WIDTH: &str = "target_pointer_width = \"64\"";
    copy(from, to);
    for f in ["rngs/mod.rs", "rngs/small.rs"] {
        let text = fs::read_to_string(to.join(f)).unwrap();
        assert!(text.contains(WIDTH), "rand's {f} names no pointer width");
        fs::write(to.join(f), text.replace(WIDTH, "any()")).unwrap();
    }
}

fn copy(from: &Path, to: &Path) {
    fs::create_dir_all(to).unwrap();
    for e in fs::read_dir(from).unwrap() {
        let e = e.unwrap();
        let target = to.join(e.file_name());
        if e.path().is_dir() {
            copy(&e.path(), &target);
        } else {
            fs::write(&target, fs::read(e.path()).unwrap()).unwrap();
        }
    }
}
