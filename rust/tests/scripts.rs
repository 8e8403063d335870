//! The scripts around the package, with a stand-in for `rt` in a folder of its own: what is proved again, and what is said before that.

use std::fs;
use std::path::{Path, PathBuf};
use std::process::{Command, Output};

const RT: &str = r#"#!/bin/sh
top=$(dirname "$0")/..
echo "$*" >> "$top/calls"
[ "$1" != version ] || { echo "kit-of-tests logic 0"; exit; }
echo "rt: a proved (1 s)"
echo "fn a: proved"
[ ! -e "$top/fails" ] || exit 1
if [ -e "$top/edited" ]; then sleep 0.1; echo more >> "$top/crates/a"; fi
mkdir -p out
echo archive > out/libslider_c.a
"#;

struct Repository(PathBuf);

impl Repository {
    fn new(name: &str) -> Repository {
        let top = PathBuf::from(env!("CARGO_TARGET_TMPDIR")).join("scripts").join(name);
        let _ = fs::remove_dir_all(&top);
        for folder in ["bin", "crates/slider_c", "rust", "tools"] {
            fs::create_dir_all(top.join(folder)).unwrap();
        }
        let here = Path::new(env!("CARGO_MANIFEST_DIR"));
        fs::copy(here.join("library"), top.join("rust/library")).unwrap();
        fs::copy(here.join("../tools/prove.sh"), top.join("tools/prove.sh")).unwrap();
        fs::write(top.join("crates.txt"), "a:\n").unwrap();
        fs::write(top.join("crates/a"), "").unwrap();
        fs::write(top.join("bin/rt"), RT).unwrap();
        let made = Command::new("chmod").arg("+x").arg(top.join("bin/rt")).status().unwrap();
        assert!(made.success());
        Repository(top)
    }

    /// `rust/library`, and how often `rt lib` has been called up to now.
    fn library(&self) -> (Output, usize) {
        let path = format!("{}:{}", self.0.join("bin").display(), std::env::var("PATH").unwrap());
        let script = self.0.join("rust/library");
        let output = Command::new(script).env("PATH", path).env_remove("SLIDER_LIB").current_dir("/").output().unwrap();
        let calls = fs::read_to_string(self.0.join("calls")).unwrap_or_default();
        (output, calls.lines().filter(|call| *call == "lib").count())
    }

    fn write(&self, path: &str, text: &str) {
        std::thread::sleep(std::time::Duration::from_millis(50)); // so that it is newer
        fs::write(self.0.join(path), text).unwrap();
    }
}

fn text(bytes: &[u8]) -> String {
    String::from_utf8_lossy(bytes).into_owned()
}

/// Proved once; again after an edit, also after one that was made while it was proved.
#[test]
fn a_stale_archive_is_seen() {
    let top = Repository::new("stale");
    let (output, calls) = top.library();
    let said = text(&output.stderr);
    assert_eq!((output.status.code(), text(&output.stdout).as_str(), calls), (Some(0), "", 1), "{said}");
    assert!(said.contains("minutes") && said.contains("rt: a proved (1 s)") && !said.contains("fn a"), "{said}");
    let note = fs::read_to_string(top.0.join("target/staticlib/libslider.made")).unwrap();
    assert!(note.starts_with("sha256 ") && note.ends_with("\nkit kit-of-tests logic 0\n"), "{note}");

    assert_eq!(text(&top.library().0.stderr), "");
    assert_eq!(top.library().1, 1);
    top.write("crates/a", "edited");
    assert_eq!((top.library().1, top.library().1), (2, 2));

    top.write("edited", ""); // from here on a source changes while it is proved
    top.write("crates/a", "edited again");
    assert_eq!((top.library().1, top.library().1), (3, 4));
    fs::remove_file(top.0.join("edited")).unwrap();
    assert_eq!((top.library().1, top.library().1), (5, 5));

    top.write("target/staticlib/libslider.a", "another archive, whose note this is not");
    assert_eq!((top.library().1, top.library().1), (6, 6));
    let names = fs::read_dir(top.0.join("target")).unwrap().map(|entry| entry.unwrap().file_name());
    assert!(names.into_iter().all(|name| name == "staticlib" || name == "rt.log"));
}

#[test]
fn what_is_not_proved_is_not_built() {
    let top = Repository::new("fails");
    top.write("fails", "");
    let (output, _) = top.library();
    assert_eq!(output.status.code(), Some(2));
    assert!(text(&output.stderr).contains("rt lib in crates/slider_c failed: see "), "{}", text(&output.stderr));
    fs::remove_file(top.0.join("fails")).unwrap();
    assert_eq!(top.library().0.status.code(), Some(0));
    top.write("fails", "");
    top.write("crates/a", "edited");
    assert_eq!((top.library().0.status.code(), top.library().0.status.code()), (Some(2), Some(2)));

    fs::remove_file(top.0.join("bin/rt")).unwrap();
    let tools = top.0.join("bin");
    for tool in ["sh", "dirname", "find", "head", "sha256sum", "cut", "sed", "mkdir"] {
        let found = Command::new("sh").args(["-c", "command -v \"$1\"", "sh", tool]).output().unwrap();
        std::os::unix::fs::symlink(text(&found.stdout).trim(), tools.join(tool)).unwrap();
    }
    let output = Command::new(top.0.join("rust/library")).env("PATH", &tools).env_remove("SLIDER_LIB").output().unwrap();
    assert_eq!(output.status.code(), Some(2));
    assert!(text(&output.stderr).contains("no rt here"), "{}", text(&output.stderr));
}

/// With nothing in reach but a shell: all that is missing, at once.
#[test]
fn missing_packages_are_said_first() {
    let folder = PathBuf::from(env!("CARGO_TARGET_TMPDIR")).join("scripts/bare");
    let _ = fs::remove_dir_all(&folder);
    fs::create_dir_all(&folder).unwrap();
    for (tool, path) in [("sh", "/bin/sh"), ("dirname", "/usr/bin/dirname")] {
        std::os::unix::fs::symlink(path, folder.join(tool)).unwrap();
    }
    let here = Path::new(env!("CARGO_MANIFEST_DIR"));
    for machine in ["x86_64", "aarch64"] {
        fs::write(folder.join("uname"), format!("#!/bin/sh\necho {machine}\n")).unwrap();
        assert!(Command::new("chmod").arg("+x").arg(folder.join("uname")).status().unwrap().success());
        for script in ["cross/check", "run", "test", "cross/cargo"] {
            let output = Command::new(here.join(script)).env("PATH", &folder).env("XRUST", &folder).output().unwrap();
            let said = text(&output.stderr);
            assert_eq!(output.status.code(), Some(2), "{script}: {said}");
            assert!(said.starts_with("missing here:\n") && said.contains("cargo, of the package"), "{script}: {said}");
            let other = ["qemu-user", "gcc-x86-64-linux-gnu", "a Rust for x86-64"];
            assert!(other.iter().all(|word| said.contains(word) == (machine == "aarch64")), "{script}: {said}");
        }
    }
}

/// The comparison judges its arguments before it builds anything: here it could not build.
#[test]
fn the_comparison_judges_first() {
    let here = Path::new(env!("CARGO_MANIFEST_DIR"));
    let source = PathBuf::from(env!("CARGO_TARGET_TMPDIR")).join("scripts/chess/src");
    fs::create_dir_all(source.join("gen_tables")).unwrap();
    for file in ["bitboard.rs", "magic.rs", "gen_tables/magic.rs"] {
        fs::write(source.join(file), "").unwrap();
    }
    let chess = source.parent().unwrap().to_str().unwrap();
    for (words, message) in [
        (vec![], "run CHESS_SRC [PART..]"),
        (vec!["no-such-folder"], "no folder no-such-folder"),
        (vec!["/"], "no bitboard.rs in /"),
        (vec![chess, "boards"], "no part \"boards\"; parts: board walks"),
        (vec![chess, "board", ""], "no part \"\""),
        (vec![chess, "board", "-v"], "no part \"-v\""),
        (vec![chess, "board", "b...d"], "no part \"b...d\""),
        (vec![chess, "speed", "many"], "QUERIES is a decimal number, not \"many\""),
        (vec![chess, "speed", "0"], "QUERIES is above 0"),
        (vec![chess, "speed", "10", "0"], "ROUNDS is above 0"),
        (vec![chess, "speed", "10", "5", "6"], "speed [QUERIES [ROUNDS]]"),
        (vec![chess, "record"], "record FOLDER"),
        (vec![chess, "record", "no-such-folder"], "record FOLDER"),
    ] {
        for script in ["compare/run", "bench"] {
            let words: Vec<&str> = match (script, words.as_slice()) {
                ("bench", [src, "speed", rest @ ..]) => [&[*src], rest].concat(),
                ("bench", _) => continue,
                (_, words) => words.to_vec(),
            };
            let output = Command::new(here.join(script)).args(&words).env("RAND_SRC", "/").output().unwrap();
            let said = text(&output.stderr);
            assert_eq!((output.status.code(), said.lines().count()), (Some(2), 1), "{script} {words:?}: {said}");
            assert!(said.contains(message), "{script} {words:?}: {said}");
        }
    }
    let output = Command::new(here.join("compare/run")).args([chess, "board"]).env("COMPARE_SEED", "x").output().unwrap();
    assert!(text(&output.stderr).contains("COMPARE_SEED is a decimal number"), "{}", text(&output.stderr));
}
