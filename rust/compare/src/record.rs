//! compare record FOLDER: writes stdin and stdout of the program crates/recorded. Questions: for each kind and square 16 sets of blockers,
//! chosen and random ones. Answers: the original's rays and masks, and its moves by get_rook_moves and get_bishop_moves.
use crate::random::Random;
use crate::theirs::{self, Original};
use std::path::Path;

pub fn write(folder: &str) {
    let o = Original::new();
    let mut random = Random::new(20_261_115);
    let (mut blocks, mut asked, mut walks) = (String::new(), String::new(), String::new());
    for (letter, kind) in [('R', 0), ('B', 1)] {
        for sq in 0..64 {
            let block = theirs::block(kind, sq);
            let (rays, mask, own) = (o.rays[block], o.masks[block], 1u64 << sq);
            let piece = format!("{letter} {}", theirs::square(sq));
            blocks += &format!("{piece} {rays:016X} {mask:016X}\n");
            let chosen = [0, !0, mask, !mask, rays, own, !own];
            for b in chosen.into_iter().chain((0..9).map(|density| random.set(density))) {
                asked += &format!("{piece} {b:016X}\n");
                walks += &format!("{piece} {b:016X} {:016X}\n", theirs::moves(kind, sq, b));
            }
        }
    }
    for (name, text) in [("stdin", asked), ("stdout", blocks + &walks)] {
        let file = Path::new(folder).join(name);
        std::fs::write(&file, &text).unwrap_or_else(|e| panic!("{}: {e}", file.display()));
        println!("{}: {} lines", file.display(), text.lines().count());
    }
}
