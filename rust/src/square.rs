//! Squares and their names.

use crate::ffi::{self, SliderStep};
use crate::Refusal;
use std::fmt;
use std::str::FromStr;

/// A square: 0 is a1, 7 is h1, 56 is a8.
///
/// ```
/// use slider::{Refusal, Square};
///
/// let d4: Square = "d4".parse()?;
/// assert_eq!(d4, Square::D4);
/// assert_eq!((d4.number(), d4.rank(), d4.file()), (27, 3, 3));
/// assert_eq!(d4.to_string(), "d4");
/// assert_eq!(Square::try_from(64), Err(Refusal::Square));
/// assert_eq!("i4".parse::<Square>(), Err(Refusal::Square));
/// # Ok::<(), Refusal>(())
/// ```
#[derive(Clone, Copy, Debug, PartialEq, Eq, PartialOrd, Ord, Hash)]
#[repr(transparent)]
pub struct Square(u8);

macro_rules! squares {
    ($($name:ident)+) => {
        enum Number {
            $($name),+
        }

        impl Square {
            /// The 64 squares, a1 to h8.
            pub const ALL: [Square; 64] = [$(Square::$name),+];
            $(
                #[doc = concat!("The square ", stringify!($name), ".")]
                pub const $name: Square = Square(Number::$name as u8);
            )+
        }
    };
}

squares! {
    A1 B1 C1 D1 E1 F1 G1 H1
    A2 B2 C2 D2 E2 F2 G2 H2
    A3 B3 C3 D3 E3 F3 G3 H3
    A4 B4 C4 D4 E4 F4 G4 H4
    A5 B5 C5 D5 E5 F5 G5 H5
    A6 B6 C6 D6 E6 F6 G6 H6
    A7 B7 C7 D7 E7 F7 G7 H7
    A8 B8 C8 D8 E8 F8 G8 H8
}

impl Square {
    /// The square of a number below 64, as the library hands it back.
    pub(crate) fn of(number: u64) -> Square {
        Square((number % 64) as u8)
    }

    /// The 64 squares, a1 to h8.
    pub fn all() -> impl DoubleEndedIterator<Item = Square> + ExactSizeIterator {
        (0..64).map(Square)
    }

    /// 0 to 63.
    #[inline]
    pub const fn number(self) -> u8 {
        self.0
    }

    /// 0 to 7, from rank 1.
    pub const fn rank(self) -> u8 {
        self.0 / 8
    }

    /// 0 to 7, from file a.
    pub const fn file(self) -> u8 {
        self.0 % 8
    }

    /// The set of this square alone.
    pub const fn bit(self) -> u64 {
        1 << self.0
    }

    /// The square one rank higher, if it is on the board.
    pub fn up(self) -> Option<Square> {
        to(ffi::up(self.0))
    }

    /// The square one rank lower, if it is on the board.
    pub fn down(self) -> Option<Square> {
        to(ffi::down(self.0))
    }

    /// The square one file towards a, if it is on the board.
    pub fn left(self) -> Option<Square> {
        to(ffi::left(self.0))
    }

    /// The square one file towards h, if it is on the board.
    ///
    /// ```
    /// use slider::Square;
    ///
    /// let g1 = Square::try_from(6).unwrap();
    /// assert_eq!(g1.right().unwrap().to_string(), "h1");
    /// assert_eq!(g1.right().unwrap().right(), None);
    /// ```
    pub fn right(self) -> Option<Square> {
        to(ffi::right(self.0))
    }
}

fn to(step: SliderStep) -> Option<Square> {
    (step.number == 0 && step.off == 0).then(|| Square::of(step.square))
}

impl TryFrom<u8> for Square {
    type Error = Refusal;

    fn try_from(number: u8) -> Result<Square, Refusal> {
        match number {
            0..=63 => Ok(Square(number)),
            _ => Err(Refusal::Square),
        }
    }
}

impl From<Square> for u8 {
    #[inline]
    fn from(square: Square) -> u8 {
        square.0
    }
}

/// Reads a letter a to h and a digit 1 to 8. What follows is ignored, as in the original's `from_str`.
impl FromStr for Square {
    type Err = Refusal;

    fn from_str(name: &str) -> Result<Square, Refusal> {
        ffi::square(name.as_bytes()).said().map(Square::of)
    }
}

/// The name, as in `d4`.
impl fmt::Display for Square {
    fn fmt(&self, f: &mut fmt::Formatter) -> fmt::Result {
        let name = ffi::name(self.0);
        f.pad(&String::from_iter([name.letter, name.digit].map(char::from)))
    }
}
