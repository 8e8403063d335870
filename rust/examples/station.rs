//! The station's loop: sixty boards, tables built once, each board asked for check by look-outs from its king.
//!
//!     rust/cross/cargo run --release --example station

use slider::{Bitboard, Error, Kind, Square, Tables};
use std::time::Instant;

const BOARDS: usize = 60;
const ROUNDS: usize = 1000;

/// What the sensors of a board tell: one side's king, and the other side's sliders. A queen is in both sets of movers.
#[derive(Clone, Copy)]
struct Board {
    king: Square,
    rook_movers: Bitboard,
    bishop_movers: Bitboard,
    occupied: Bitboard,
}

/// Who gives check: the rook movers that the king sees as a rook would, and the bishop movers that it sees as a bishop would.
fn checkers(tables: &Tables, board: &Board) -> Bitboard {
    let along_lines = tables.attacks(Kind::Rook, board.king, board.occupied);
    let along_diagonals = tables.attacks(Kind::Bishop, board.king, board.occupied);
    along_lines & board.rook_movers | along_diagonals & board.bishop_movers
}

/// Boards in place of sensors: SplitMix64 sets a king, two rooks, two bishops, a queen and twelve others, on squares of their own.
struct Sensors(u64);

impl Sensors {
    fn next(&mut self) -> u64 {
        self.0 = self.0.wrapping_add(0x9E37_79B9_7F4A_7C15);
        let z = (self.0 ^ self.0 >> 30).wrapping_mul(0xBF58_476D_1CE4_E5B9);
        let z = (z ^ z >> 27).wrapping_mul(0x94D0_49BB_1331_11EB);
        z ^ z >> 31
    }

    fn free(&mut self, occupied: &mut Bitboard) -> Square {
        loop {
            let square = Square::ALL[(self.next() % 64) as usize];
            if !occupied.contains(square) {
                *occupied |= square.into();
                return square;
            }
        }
    }

    fn board(&mut self) -> Board {
        let mut occupied = Bitboard::EMPTY;
        let king = self.free(&mut occupied);
        let mut pieces = |count: usize| (0..count).map(|_| self.free(&mut occupied)).collect::<Bitboard>();
        let (rooks, bishops, queen) = (pieces(2), pieces(2), pieces(1));
        pieces(12);
        Board { king, rook_movers: rooks | queen, bishop_movers: bishops | queen, occupied }
    }

    /// All boards as they stand now.
    fn read(&mut self) -> [Board; BOARDS] {
        [(); BOARDS].map(|()| self.board())
    }
}

fn main() -> Result<(), Error> {
    println!("{}", slider::IDENTITY);
    let begun = Instant::now();
    let tables = Tables::try_build(42)?; // once; from here on nothing can be refused
    println!("tables from seed 42: {} slots, {:.2} s", tables.used(), begun.elapsed().as_secs_f64());

    let mut sensors = Sensors(1);
    let mut in_check = 0;
    for round in 1..=ROUNDS {
        for (number, board) in (1..).zip(&sensors.read()) {
            let from = checkers(&tables, board);
            if !from.is_empty() {
                in_check += 1;
            }
            if round == 1 && number <= 3 {
                let squares: Vec<String> = from.into_iter().map(|square| square.to_string()).collect();
                println!("\nboard {number}, king on {}, in check from [{}]", board.king, squares.join(", "));
                println!("{}", board.occupied);
            }
        }
    }
    println!("\n{ROUNDS} rounds of {BOARDS} boards: {in_check} times a king was in check");
    Ok(())
}

#[cfg(test)]
mod tests {
    use super::*;

    /// A look-out from the king sees exactly those that see the king.
    #[test]
    fn looking_out_is_being_seen() {
        let tables = Tables::build(42).unwrap();
        let mut sensors = Sensors(7);
        let (mut checks, mut boards) = (0, 0);
        for board in (0..ROUNDS).map(|_| sensors.board()) {
            let sees = |kind: Kind, from: &Square| Bitboard::walk(kind, *from, board.occupied).contains(board.king);
            let rooks = board.rook_movers.into_iter().filter(|from| sees(Kind::Rook, from));
            let bishops = board.bishop_movers.into_iter().filter(|from| sees(Kind::Bishop, from));
            let seen: Bitboard = rooks.chain(bishops).collect();
            assert_eq!(checkers(&tables, &board), seen, "king on {}\n{}", board.king, board.occupied);
            checks += seen.len();
            boards += usize::from(!seen.is_empty());
        }
        assert!(0 < boards && boards < checks && boards < ROUNDS, "{boards} boards, {checks} checks");
    }

    #[test]
    fn the_loop_runs() {
        main().unwrap();
    }

    /// By hand: a rook on e8 gives check to a king on e1 until a piece stands between.
    #[test]
    fn a_check_and_a_shield() {
        let tables = Tables::build(42).unwrap();
        let rook = Bitboard::from(Square::E8);
        let king = Square::E1;
        let open = Board { king, rook_movers: rook, bishop_movers: Bitboard::EMPTY, occupied: rook | king.into() };
        assert_eq!(checkers(&tables, &open), rook);
        let shielded = Board { occupied: open.occupied | Square::E4.into(), ..open };
        assert_eq!(checkers(&tables, &shielded), Bitboard::EMPTY);
    }
}
