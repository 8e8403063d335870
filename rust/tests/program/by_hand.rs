//! Numbers of the documents, tried by hand; what the program was made from.

use crate::{slider, stored};
use std::process::Command;

#[test]
fn searches() {
    for (words, answer) in [
        ("search R h1 1", "found 0600010600204084 attempts 171853\n"),
        ("search R h1 1 --budget 171853", "found 0600010600204084 attempts 171853\n"),
        ("search B a1 1 --json", "{\"found\":\"4002141002084100\",\"attempts\":2060}\n"),
    ] {
        slider(words).gives(answer, 0);
    }
    for (words, answer, message) in [
        ("search R h1 1 --budget 171852", "refused 5 block 71\n", "refusal 5: the budget is spent, and no candidate"),
        ("search B a1 1 --budget 0", "refused 5 block 0\n", "block 0 (bishop a1)"),
        ("search R h1 1 --budget 16777217", "refused 10\n", "refusal 10: the budget is above 16777216"),
        ("search R h1 1 --budget 0 --json", "{\"refused\":5,\"block\":71}\n", "refusal 5"),
        ("search R h1 1 --budget 0xffffffffffffffff --json", "{\"refused\":10}\n", "refusal 10"),
    ] {
        let ran = slider(words);
        assert_eq!((ran.out.as_str(), ran.status), (answer, Some(1)), "{words}");
        ran.says(&[message]);
    }
    // what the stored report has, block by block
    for line in stored("build-1.txt").lines().skip(4).step_by(9) {
        let words: Vec<&str> = line.split(' ').collect();
        let block: usize = words[1].parse().unwrap();
        let square = format!("{}{}", (b'a' + (block % 8) as u8) as char, block % 64 / 8 + 1);
        let piece = if block < 64 { "B" } else { "R" };
        slider(&format!("search {piece} {square} 1")).gives(&format!("found {} attempts {}\n", words[3], words[11]), 0);
    }
    for (words, message) in [
        ("search", "no piece; see `slider search --help`"),
        ("search R", "no square"),
        ("search R d4", "no SEED"),
        ("search K d4 1", "piece: \"K\""),
        ("search R d0 1", "square: \"d0\""),
        ("search R d4 x", "SEED: \"x\""),
        ("search R d4 1 2", "\"2\" is one argument too many"),
        ("search R d4 1 --slots 5", "unknown option --slots"),
    ] {
        slider(words).is_bad(&[message]);
    }
}

#[test]
fn rays_masks_and_entries() {
    for (words, answer) in [
        ("rays R a1", "rays 01010101010101FE\n"),
        ("rays B a1", "rays 8040201008040200\n"),
        ("rays B a1 --json", "{\"rays\":\"8040201008040200\"}\n"),
        ("mask R a1", "mask 000101010101017E size 4096 shift 52\n"),
        ("mask B a1", "mask 0040201008040200 size 64 shift 58\n"),
        ("mask R d4 --json", "{\"mask\":\"0008080876080800\",\"size\":1024,\"shift\":54}\n"),
        ("pext R a1 65", "entry 129 subset 0000000000000102 walk 0000000000000102\n"),
        ("pext R a1 0", "entry 16383 subset 0000000000000000 walk 01010101010101FE\n"),
        ("pext B a1", "offset 4096 size 64\n"),
        ("pext R b1", "offset 4160 size 2048\n"),
        ("pext B b1", "offset 6208 size 32\n"),
        ("pext R c1", "offset 6240 size 2048\n"),
        ("pext R h8", "offset 103488 size 4096\n"),
        ("pext B h8 --json", "{\"offset\":107584,\"size\":64}\n"),
    ] {
        slider(words).gives(answer, 0);
    }
    for (words, message) in [
        ("rays R", "no square"),
        ("rays R d4 5", "\"5\" is one argument too many"),
        ("mask R i9", "square: \"i9\""),
        ("pext R", "no square"),
        ("pext R a1 4096", "ENTRY: 4096 is not below 4096"),
        ("pext R a1 18446744073709551615", "ENTRY: 18446744073709551615 is not below 4096"),
        ("pext R a1 x", "ENTRY: \"x\""),
        ("pext R a1 1 2", "\"2\" is one argument too many"),
    ] {
        slider(words).is_bad(&[message]);
    }
    slider("board R d4 000008000A000000 --json").gives("{\"attacks\":\"00000808F6080808\"}\n", 0);
}

/// The digest over entries that are worked out here by rank and file, in the rulebook's order.
#[test]
fn digest_of_the_pext_table() {
    let mut bytes = Vec::new();
    for square in 0..64 {
        for slanted in [false, true] {
            let lines = lines(square, slanted);
            let inner = |line: &Vec<u32>| line[..line.len().saturating_sub(1)].to_vec();
            let (rays, mask) = (sorted(lines.concat()), sorted(lines.iter().flat_map(inner).collect()));
            for i in 0..1_usize << mask.len() {
                let blocked = |at: &u32| mask.iter().position(|other| other == at).map_or(false, |j| i >> j & 1 == 1);
                let seen = |line: &Vec<u32>| {
                    let end = line.iter().position(blocked).map_or(line.len(), |at| at + 1);
                    line[..end].to_vec()
                };
                let seen: Vec<u32> = lines.iter().flat_map(seen).collect();
                let entry = rays.iter().enumerate().filter(|(_, at)| seen.contains(at)).map(|(j, _)| 1_u16 << j).sum::<u16>();
                bytes.extend(entry.to_le_bytes());
            }
        }
    }
    let step = |hash: u64, byte: &u8| (hash ^ u64::from(*byte)).wrapping_mul(0x0000_0100_0000_01B3);
    let digest = bytes.iter().fold(0xCBF2_9CE4_8422_2325, step);
    assert_eq!(bytes.len(), 2 * 107_648);
    slider("pext").gives(&format!("pext-fnv {digest:016X} entries 107648\n"), 0);
    slider("pext --json").gives(&format!("{{\"pext-fnv\":\"{digest:016X}\",\"entries\":107648}}\n"), 0);
    assert!(slider("pext --help").out.contains(&format!("pext-fnv {digest:016X}")));
}

fn sorted(mut squares: Vec<u32>) -> Vec<u32> {
    squares.sort_unstable();
    squares
}

/// The squares from one on in each of the four directions.
fn lines(square: i32, slanted: bool) -> Vec<Vec<u32>> {
    let directions = if slanted { [(1, 1), (1, -1), (-1, 1), (-1, -1)] } else { [(0, 1), (0, -1), (1, 0), (-1, 0)] };
    let line = |(up, right): (i32, i32)| {
        let at = |n| (square / 8 + n * up, square % 8 + n * right);
        let on = |place: &(i32, i32)| (0..8).contains(&place.0) && (0..8).contains(&place.1);
        (1..8).map(at).take_while(on).map(|(rank, file)| (8 * rank + file) as u32).collect()
    };
    directions.map(line).to_vec()
}

/// The same identity from the program and in its reports; the library's digest is that of the file.
#[test]
fn identity() {
    let ran = slider("version");
    let lines: Vec<&str> = ran.out.lines().collect();
    assert_eq!((lines.len(), lines[0]), (4, concat!("slider ", env!("CARGO_PKG_VERSION"))));
    assert_eq!((slider("-V").out, slider("--version").out), (ran.out.clone(), format!("{}\n", lines[0])));
    let rest = |line: &'static str, at: usize| lines[at].strip_prefix(line).unwrap_or_else(|| panic!("{}", lines[at]));
    let (commit, kit, library) = (rest("commit ", 1), rest("kit ", 2), rest("library-sha256 ", 3));
    let json = format!(
        "{{\"version\":\"{}\",\"commit\":\"{commit}\",\"kit\":\"{kit}\",\"library-sha256\":\"{library}\"}}\n",
        env!("CARGO_PKG_VERSION")
    );
    slider("version --json").gives(&json, 0);
    let digest = Command::new("sha256sum").arg(env!("SLIDER_ARCHIVE")).output().unwrap();
    assert!(String::from_utf8(digest.stdout).unwrap().starts_with(library), "{library}");
    assert!(
        commit == "unknown" || commit.trim_end_matches("+changes").bytes().all(|byte| byte.is_ascii_hexdigit()),
        "{commit}"
    );
    assert!(kit == "unknown" || kit.contains(" logic "), "{kit}");
    let report = slider("build 1 --slots 0 --origin").out;
    assert!(report.ends_with(&format!("\nmade {}\n", lines.join(" "))), "{report}");
}
