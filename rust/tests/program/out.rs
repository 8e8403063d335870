//! `build --out`: into a file, whole or not at all.

use crate::slider;

#[test]
fn whole_or_not_at_all() {
    let folder = std::path::PathBuf::from(env!("CARGO_TARGET_TMPDIR")).join("out");
    let _ = std::fs::remove_dir_all(&folder);
    std::fs::create_dir(&folder).unwrap();
    let path = folder.join("report");
    let path = path.to_str().unwrap();
    slider(&format!("build 1 --out {path}")).gives("", 0);
    assert_eq!(std::fs::read_to_string(path).unwrap(), slider("build 1").out);
    slider(&format!("audit {path}")).gives("accepted reach 104960\n", 0);
    slider(&format!("build 1 --origin --out {path}")).gives("", 0);
    assert_eq!(std::fs::read_to_string(path).unwrap(), slider("build 1 --origin").out);
    slider(&format!("audit {path}"))
        .gives("accepted reach 104960\nrebuilt from seed 1 budget 16777216 slots 107648 marks 107648\n", 0);
    slider(&format!("build 1 --slots 63 --out {path}")).gives("", 1);
    assert!(std::fs::read_to_string(path).unwrap().starts_with("outcome refused 4 block 0\n"));
    slider(&format!("build 1 --slots 63 --out {path}/no")).is_bad(&["cannot write \""]);
    slider("build 1 --slots 63 --out /dev/full").is_bad(&["cannot write \"/dev/full\""]);
    assert_eq!(std::fs::read_dir(&folder).unwrap().count(), 1);
}
