//! The original's answers, by kind and square or by block.
use crate::images::{self, Image};
use original::bitboard::{BitBoard, EMPTY};
use original::gen_tables::{magic_helpers, rays};
use original::magic;
use original::piece::Piece;
use original::square::{Square, ALL_SQUARES};

/// Bishop on s is block s, rook on s is 64 + s.
pub fn kind_square(block: usize) -> (u8, u8) {
    ((block < 64) as u8, (block % 64) as u8)
}

pub fn block(kind: u8, sq: u8) -> usize {
    sq as usize + 64 * (kind == 0) as usize
}

fn piece(kind: u8) -> Piece {
    if kind == 0 {
        Piece::Rook
    } else {
        Piece::Bishop
    }
}

pub fn square(sq: u8) -> Square {
    ALL_SQUARES[sq as usize]
}

/// src/magic.rs, over the table compiled into it.
pub fn moves(kind: u8, sq: u8, blockers: u64) -> u64 {
    let f = if kind == 0 { magic::get_rook_moves } else { magic::get_bishop_moves };
    f(square(sq), BitBoard(blockers)).0
}

pub fn moves_bmi(kind: u8, sq: u8, blockers: u64) -> u64 {
    let f = if kind == 0 { magic::get_rook_moves_bmi } else { magic::get_bishop_moves_bmi };
    f(square(sq), BitBoard(blockers)).0
}

/// The loop of questions_and_answers, copied with its types and its XOR, over any blockers.
#[allow(clippy::option_map_or_none, clippy::partialeq_to_none)] // as the original has it
pub fn loop_copy(kind: u8, sq: u8, blockers: u64) -> u64 {
    let step = |d: usize, s: Square| -> Option<Square> {
        match (kind, d) {
            (0, 0) => s.left(),
            (0, 1) => s.right(),
            (0, 2) => s.up(),
            (0, _) => s.down(),
            (_, 0) => s.left().map_or(None, |s| s.up()),
            (_, 1) => s.right().map_or(None, |s| s.up()),
            (_, 2) => s.left().map_or(None, |s| s.down()),
            (_, _) => s.right().map_or(None, |s| s.down()),
        }
    };
    let question = BitBoard(blockers);
    let mut answer = EMPTY;
    for d in 0..4 {
        let mut next = step(d, square(sq));
        while next != None {
            answer ^= BitBoard::from_square(next.unwrap());
            if (BitBoard::from_square(next.unwrap()) & question) != EMPTY {
                break;
            }
            next = step(d, next.unwrap());
        }
    }
    answer.0
}

/// What is asked for once; lists are in block order.
pub struct Original {
    pub images: [Image; 3],
    pub rays: Vec<u64>,
    pub masks: Vec<u64>,
    pub questions: Vec<Vec<u64>>,
    pub answers: Vec<Vec<u64>>,
}

impl Original {
    pub fn new() -> Original {
        rays::gen_rook_rays();
        rays::gen_bishop_rays();
        let mut o = Original { images: images::all(), rays: vec![], masks: vec![], questions: vec![], answers: vec![] };
        for (kind, sq) in (0..128).map(kind_square) {
            let (sq, piece) = (square(sq), piece(kind));
            let (questions, answers) = magic_helpers::questions_and_answers(sq, piece);
            o.rays.push(rays::get_rays(sq, piece).0);
            o.masks.push(magic_helpers::magic_mask(sq, piece).0);
            o.questions.push(questions.iter().map(|b| b.0).collect());
            o.answers.push(answers.iter().map(|b| b.0).collect());
        }
        o
    }
}
