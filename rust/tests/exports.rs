//! The border: nothing but these tests holds what Rust and C declare against what the proved library exports.

mod common;

use std::collections::BTreeMap;
use std::path::PathBuf;
use std::process::Command;

fn text(path: &str) -> String {
    let path = PathBuf::from(env!("CARGO_MANIFEST_DIR")).join(path);
    std::fs::read_to_string(&path).unwrap_or_else(|error| panic!("{}: {error}", path.display()))
}

/// Without comments, on one line, with single spaces.
fn flat(text: &str) -> String {
    let mut text = text.to_string();
    while let Some(from) = text.find("/*") {
        let to = from + text[from..].find("*/").unwrap() + 2;
        text.replace_range(from..to, "");
    }
    let lines = text.lines().map(|line| line.split("//").next().unwrap().trim());
    lines.filter(|line| !line.is_empty() && !line.starts_with('#')).collect::<Vec<_>>().join(" ")
}

/// Name and what is declared of it, in Rust's words: fields, or parameters and result, each as `name: type`.
type Declared = BTreeMap<String, Vec<String>>;

/// The items of a list at commas.
fn items(list: &str) -> Vec<String> {
    list.split(',').map(|item| item.trim().to_string()).filter(|item| !item.is_empty()).collect()
}

/// `pub a: T` of a struct, or `a: T` of a function, a slice as pointer and length.
fn rust_item(item: &str) -> Vec<String> {
    let (name, type_) = item.trim_start_matches("pub ").split_once(": ").unwrap();
    let type_ = type_.replace("; BLOCKS]", "; 128]");
    for (slice, pointer) in [("&mut [", "*mut"), ("&[", "*const")] {
        if let Some(element) = type_.strip_prefix(slice).and_then(|rest| rest.strip_suffix(']')) {
            return vec![format!("{name}: {pointer} {element}"), format!("{name}_len: usize")];
        }
    }
    vec![format!("{name}: {type_}")]
}

/// Rust and Rattle: `<before>NAME<open>items<close>`, and after a function its result.
fn rust(text: &str, before: &str, open: char, close: char) -> Declared {
    let mut all = Declared::new();
    for piece in text.split(before).skip(1) {
        let (name, rest) = piece.split_once(open).unwrap();
        let (list, rest) = rest.split_once(close).unwrap();
        let mut declared: Vec<String> = items(list).iter().flat_map(|item| rust_item(item)).collect();
        if let Some(result) = rest.strip_prefix(" -> ") {
            let end = result.find([' ', ';']).unwrap();
            declared.push(format!("-> {}", &result[..end]));
        }
        all.insert(name.trim().to_string(), declared);
    }
    all
}

/// C: `const uint64_t *table`, `Record records[128]`.
fn c_item(item: &str) -> String {
    let item = item.replace("SliderRecord ", "Record ").replace("uint", "u").replace("_t ", " ").replace("size ", "usize ");
    let (type_, name) = item.rsplit_once(' ').unwrap();
    let (name, type_) = match (name.strip_prefix('*'), type_.strip_prefix("const ")) {
        (Some(name), Some(type_)) => (name, format!("*const {type_}")),
        (Some(name), None) => (name, format!("*mut {type_}")),
        _ => (name, type_.to_string()),
    };
    match name.strip_suffix(']').and_then(|name| name.split_once('[')) {
        Some((name, length)) => format!("{name}: [{type_}; {length}]"),
        None => format!("{name}: {type_}"),
    }
}

fn c_functions(text: &str) -> Declared {
    let mut all = Declared::new();
    for piece in text.split(';').filter(|piece| piece.contains(" slider_")) {
        let (head, list) = piece.trim().split_once('(').unwrap();
        let (result, name) = head.trim().rsplit_once(' ').unwrap();
        let result = result.rsplit(' ').next().unwrap().replace("uint64_t", "u64");
        let mut declared: Vec<String> = items(list.trim_end_matches(')')).iter().map(|item| c_item(item)).collect();
        declared.push(format!("-> {result}"));
        all.insert(name.to_string(), declared);
    }
    all
}

fn c_structs(text: &str) -> Declared {
    let mut all = Declared::new();
    for piece in text.split("typedef struct ").skip(1) {
        let (name, rest) = piece.split_once(" {").unwrap();
        let (list, _) = rest.split_once('}').unwrap();
        let fields = list.split(';').map(str::trim).filter(|field| !field.is_empty()).map(c_item);
        all.insert(name.replace("SliderRecord", "Record").replace("Records", "SliderRecords"), fields.collect());
    }
    all
}

#[test]
fn functions_are_declared_as_exported() {
    let exported = rust(&flat(&text("../crates/slider_c/src/lib.rt")), "pub extern \"C\" fn ", '(', ')');
    assert_eq!(exported.len(), 23);
    let ffi = flat(&text("src/ffi.rs")).replace("fn slider_", "@ slider_");
    assert_eq!(rust(&ffi, "@ ", '(', ')'), exported, "src/ffi.rs");
    assert_eq!(c_functions(&flat(&text("include/slider.h"))), exported, "include/slider.h");
}

#[test]
fn structs_are_declared_as_exported() {
    let slider = flat(&text("../crates/slider/src/lib.rt"));
    let gen_magic = flat(&text("../crates/gen_magic/src/lib.rt"));
    let mut exported = rust(&slider, "pub struct ", '{', '}');
    let record = |text: &str| rust(text, "pub struct Record", '{', '}').remove("").unwrap();
    exported.insert("Record".to_string(), record(&gen_magic));
    assert_eq!(exported.len(), 9);

    let mut ffi = rust(&flat(&text("src/ffi.rs")), "pub struct Slider", '{', '}');
    ffi = ffi.into_iter().map(|(name, fields)| (format!("Slider{name}"), fields)).collect();
    ffi.insert("Record".to_string(), record(&flat(&text("src/magic.rs"))));
    assert_eq!(ffi, exported, "src/ffi.rs");
    assert_eq!(c_structs(&flat(&text("include/slider.h"))), exported, "include/slider.h");
}

/// Lines without comments; derives may stand between `#[repr(C)]` and the struct.
#[test]
fn structs_have_the_layout_of_c() {
    for (path, prefix) in [
        ("../crates/slider/src/lib.rt", "pub struct Slider"),
        ("../crates/gen_magic/src/lib.rt", "pub struct Record "),
        ("src/ffi.rs", "pub struct Slider"),
        ("src/magic.rs", "pub struct Record "),
    ] {
        let text = text(path);
        let lines: Vec<&str> = text.lines().map(str::trim).filter(|line| !line.starts_with("//")).collect();
        let structs = (0..lines.len()).filter(|i| lines[*i].starts_with(prefix));
        let mut count = 0;
        for i in structs {
            let above = lines[..i].iter().rev().take_while(|line| line.starts_with('#'));
            assert!(above.clone().any(|line| *line == "#[repr(C)]"), "{path}: {}", lines[i]);
            count += 1;
        }
        assert!(count > 0, "{path}: no {prefix}");
    }
}

/// A C compiler for x86-64: where Rust links for x86-64 there is one.
fn compiler() -> &'static str {
    let makes_x86_64 = |name: &&str| {
        let machine = Command::new(name).arg("-dumpmachine").output();
        machine.map_or(false, |output| String::from_utf8_lossy(&output.stdout).starts_with("x86_64"))
    };
    let found = ["x86_64-linux-gnu-gcc", "cc", "gcc", "clang"].into_iter().find(makes_x86_64);
    found.expect("no C compiler for x86-64 here")
}

#[test]
fn a_program_in_c() {
    let here = PathBuf::from(env!("CARGO_MANIFEST_DIR"));
    let program = PathBuf::from(env!("CARGO_TARGET_TMPDIR")).join("check");
    let mut command = Command::new(compiler());
    command.args(["-std=c11", "-O2", "-Wall", "-Wextra", "-Wpedantic", "-Werror", "-I"]).arg(here.join("include"));
    command.arg(here.join("tests/c/check.c")).arg(env!("SLIDER_ARCHIVE")).arg("-o").arg(&program);
    let output = command.output().unwrap();
    assert!(output.status.success(), "{}", String::from_utf8_lossy(&output.stderr));

    let runner = std::env::var_os("CARGO_TARGET_X86_64_UNKNOWN_LINUX_GNU_RUNNER");
    let mut command = runner.map_or(Command::new(&program), |runner| {
        let mut command = Command::new(runner);
        command.arg(&program);
        command
    });
    let output = command.output().unwrap();
    let said = String::from_utf8_lossy(&output.stdout);
    assert!(output.status.success() && said.ends_with(" checks, 0 failed\n"), "{said}");
}

// ---- what else declares the exports

/// The comparison declares the exports anew, with shorter names for its structs.
fn compared() -> String {
    let mut text = flat(&text("compare/src/ours.rs"))
        .replace("pub type Records = [Record; 128];", "")
        .replace(": Records", ": [Record; 128]");
    for name in ["Answer", "Verdict", "Found", "Build", "Place", "Name", "Step"] {
        text = text.replace(&format!("-> {name};"), &format!("-> Slider{name};"));
        text = text.replace(&format!("pub struct {name} "), &format!("pub struct Slider{name} "));
    }
    text.replace("set: Set,", "set: SliderRecords,").replace("pub struct Set ", "pub struct SliderRecords ")
}

#[test]
fn compared_functions_are_declared_as_exported() {
    let exported = rust(&flat(&text("../crates/slider_c/src/lib.rt")), "pub extern \"C\" fn ", '(', ')');
    let compared = compared().replace("pub fn slider_", "@ slider_");
    assert_eq!(rust(&compared, "@ ", '(', ')'), exported, "compare/src/ours.rs");
}

#[test]
fn compared_structs_are_declared_as_exported() {
    let mut exported = rust(&flat(&text("../crates/slider/src/lib.rt")), "pub struct ", '{', '}');
    let record = |text: &str| rust(text, "pub struct Record", '{', '}').remove("").unwrap();
    exported.insert("Record".to_string(), record(&flat(&text("../crates/gen_magic/src/lib.rt"))));

    let structs = rust(&compared(), "pub struct Slider", '{', '}').into_iter();
    let mut ours: Declared = structs.map(|(name, fields)| (format!("Slider{name}"), fields)).collect();
    ours.insert("Record".to_string(), record(&compared()));
    assert_eq!(ours, exported, "compare/src/ours.rs");

    let text = text("compare/src/ours.rs");
    let lines: Vec<&str> = text.lines().map(str::trim).filter(|line| !line.starts_with("//")).collect();
    for i in (0..lines.len()).filter(|i| lines[*i].starts_with("pub struct ") && !lines[*i].contains("Queries")) {
        let mut above = lines[..i].iter().rev().take_while(|line| line.starts_with('#'));
        assert!(above.any(|line| *line == "#[repr(C)]"), "{}", lines[i]);
    }
}

/// An export is the library's function of the same name, with the same parameters and the same result.
#[test]
fn exports_are_functions_of_the_library() {
    let exported = rust(&flat(&text("../crates/slider_c/src/lib.rt")), "pub extern \"C\" fn ", '(', ')');
    let functions = rust(&flat(&text("../crates/slider/src/lib.rt")), "pub fn ", '(', ')');
    assert_eq!(exported, functions);
}

/// The header's numbers against the package's.
#[test]
fn numbers_of_the_header() {
    let header = text("include/slider.h");
    let defined = |name: &str| {
        let line = header.lines().find_map(|line| line.strip_prefix(&format!("#define {name} ")));
        line.unwrap_or_else(|| panic!("no {name}")).to_string()
    };
    assert_eq!(defined("SLIDER_VERSION_TEXT"), format!("{:?}", env!("CARGO_PKG_VERSION")));
    let parts = env!("CARGO_PKG_VERSION").split('.').map(|part| part.parse::<u32>().unwrap());
    assert_eq!(defined("SLIDER_VERSION"), parts.fold(0, |number, part| 100 * number + part).to_string());
    assert_eq!(defined("SLIDER_ROOK"), u8::from(slider::Kind::Rook).to_string());
    assert_eq!(defined("SLIDER_BISHOP"), u8::from(slider::Kind::Bishop).to_string());
    assert_eq!(defined("SLIDER_BLOCKS"), slider::BLOCKS.to_string());
    assert_eq!(defined("SLIDER_SLOTS"), slider::ALL_SLOTS.to_string());
    assert_eq!(defined("SLIDER_SLOTS"), slider::pext::ENTRIES.to_string());
    assert_eq!(defined("SLIDER_MAX_BUDGET"), slider::MAX_BUDGET.to_string());
    assert_eq!(defined("SLIDER_STACK"), slider::STACK.to_string());
    let numbers = header.lines().filter_map(|line| line.trim().strip_prefix("SLIDER_REFUSED_")?.split([' ', ',']).nth(2));
    assert!(numbers.eq((1..=11).map(|number| number.to_string())), "the refusals' numbers");
}

/// Compiles a program in C with the line that README.md and the header tell, and runs it.
fn compiled(source: &str, strict: &[&str]) -> (bool, String) {
    let here = PathBuf::from(env!("CARGO_MANIFEST_DIR"));
    let program = PathBuf::from(env!("CARGO_TARGET_TMPDIR")).join(source.replace(['/', '.'], "-"));
    let mut command = Command::new(compiler());
    command.args(strict).arg("-O2").arg("-I").arg(here.join("include"));
    command.arg(here.join(source)).arg(env!("SLIDER_ARCHIVE")).arg("-o").arg(&program);
    let output = command.output().unwrap();
    assert!(output.status.success(), "{}", String::from_utf8_lossy(&output.stderr));

    let output = common::command(&program).output().unwrap();
    (output.status.success(), String::from_utf8_lossy(&output.stdout).into_owned())
}

/// The same checks on a thread of SLIDER_STACK bytes, and the names of the numbers.
#[test]
fn a_program_in_c_on_a_small_stack() {
    let (well, said) = compiled("tests/c/stack.c", &["-std=c11", "-Wall", "-Wextra", "-Wpedantic", "-Werror", "-pthread"]);
    assert!(well && said.ends_with(" checks, 0 failed\n"), "{said}");
}

/// The line to copy is the same in three places, and what it compiles answers.
#[test]
fn the_example_in_c() {
    let line = "cc -O2 -Irust/include rust/examples/attacks.c target/staticlib/libslider.a -o attacks";
    for path in ["README.md", "include/slider.h", "examples/attacks.c"] {
        assert!(text(path).contains(line), "{path}");
    }
    let (well, said) = compiled("examples/attacks.c", &["-Wall", "-Wextra", "-Werror"]);
    assert_eq!((well, said.as_str()), (true, "used 104960, reach 104960, rook d4 attacks 00000808F6080808\n"));
}
