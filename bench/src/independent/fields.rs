//! The four fields.

// sums that are exclusive or
#![allow(clippy::suspicious_arithmetic_impl)]

use std::fmt::Debug;
use std::ops::{Add, AddAssign, Mul, Sub};

pub trait Field:
    Copy
    + Eq
    + Debug
    + Default
    + Add<Output = Self>
    + AddAssign
    + Sub<Output = Self>
    + Mul<Output = Self>
{
    const ZERO: Self;
    const SIZE: u32;
    /// Marks 1 to this count are distinct and not zero.
    const MARKS: usize;

    fn mark(j: usize) -> Self;
    /// The inverse; that of zero is zero, and nobody asks for it.
    fn inverse(self) -> Self;
    fn number(self) -> u32;
    /// The symbol of a number below the size.
    fn symbol(number: u32) -> Self;
}

macro_rules! assign {
    ($field:ty) => {
        impl AddAssign for $field {
            #[inline(always)]
            fn add_assign(&mut self, other: Self) {
                *self = *self + other;
            }
        }
    };
}

assign!(Five);
assign!(Four);
assign!(Byte);
assign!(Word);

/// Integers modulo 5.
#[derive(Clone, Copy, Debug, Default, PartialEq, Eq)]
pub struct Five(u8);

impl Add for Five {
    type Output = Self;
    #[inline(always)]
    fn add(self, other: Self) -> Self {
        Five((self.0 + other.0) % 5)
    }
}

impl Sub for Five {
    type Output = Self;
    #[inline(always)]
    fn sub(self, other: Self) -> Self {
        Five((self.0 + 5 - other.0) % 5)
    }
}

impl Mul for Five {
    type Output = Self;
    #[inline(always)]
    fn mul(self, other: Self) -> Self {
        Five(self.0 * other.0 % 5)
    }
}

impl Field for Five {
    const ZERO: Self = Five(0);
    const SIZE: u32 = 5;
    const MARKS: usize = 4;

    fn mark(j: usize) -> Self {
        Five([1, 4, 2, 3][j - 1])
    }

    fn inverse(self) -> Self {
        self * self * self
    }

    fn number(self) -> u32 {
        self.0.into()
    }

    fn symbol(number: u32) -> Self {
        Five(number as u8)
    }
}

/// The field of four elements; 2 and 3 are the roots of x² + x + 1.
#[derive(Clone, Copy, Debug, Default, PartialEq, Eq)]
pub struct Four(u8);

const FOUR_PRODUCTS: [u8; 16] = [0, 0, 0, 0, 0, 1, 2, 3, 0, 2, 3, 1, 0, 3, 1, 2];

impl Add for Four {
    type Output = Self;
    #[inline(always)]
    fn add(self, other: Self) -> Self {
        Four(self.0 ^ other.0)
    }
}

impl Sub for Four {
    type Output = Self;
    #[inline(always)]
    fn sub(self, other: Self) -> Self {
        self + other
    }
}

impl Mul for Four {
    type Output = Self;
    #[inline(always)]
    fn mul(self, other: Self) -> Self {
        Four(FOUR_PRODUCTS[usize::from(((self.0 << 2) | other.0) & 15)])
    }
}

impl Field for Four {
    const ZERO: Self = Four(0);
    const SIZE: u32 = 4;
    const MARKS: usize = 3;

    fn mark(j: usize) -> Self {
        Four([3, 2, 1][j - 1])
    }

    fn inverse(self) -> Self {
        self * self
    }

    fn number(self) -> u32 {
        self.0.into()
    }

    fn symbol(number: u32) -> Self {
        Four(number as u8)
    }
}

/// The bytes of FIPS 197: polynomials modulo x⁸ + x⁴ + x³ + x + 1.
#[derive(Clone, Copy, Debug, Default, PartialEq, Eq)]
pub struct Byte(u8);

#[inline(always)]
fn doubled(byte: u8) -> u8 {
    (byte << 1) ^ ((byte >> 7) * 0x1b)
}

impl Add for Byte {
    type Output = Self;
    #[inline(always)]
    fn add(self, other: Self) -> Self {
        Byte(self.0 ^ other.0)
    }
}

impl Sub for Byte {
    type Output = Self;
    #[inline(always)]
    fn sub(self, other: Self) -> Self {
        self + other
    }
}

impl Mul for Byte {
    type Output = Self;
    /// Eight doublings of the left factor, and the sum of those that the right
    /// one picks. Where the left one stays the same in a loop the compiler
    /// takes its doublings out of it.
    #[inline(always)]
    fn mul(self, other: Self) -> Self {
        let mut doublings = [self.0; 8];
        for bit in 1..8 {
            doublings[bit] = doubled(doublings[bit - 1]);
        }
        let picked = |bit: usize| doublings[bit] & ((other.0 >> bit) & 1).wrapping_neg();
        Byte((0..8).fold(0, |sum, bit| sum ^ picked(bit)))
    }
}

impl Field for Byte {
    const ZERO: Self = Byte(0);
    const SIZE: u32 = 256;
    const MARKS: usize = 255;

    fn mark(j: usize) -> Self {
        Byte(j as u8)
    }

    /// The 254th power: 254 is 2 + 4 + .. + 128.
    fn inverse(self) -> Self {
        let mut square = self * self;
        let mut power = square;
        for _ in 0..6 {
            square = square * square;
            power = power * square;
        }
        power
    }

    fn number(self) -> u32 {
        self.0.into()
    }

    fn symbol(number: u32) -> Self {
        Byte(number as u8)
    }
}

/// Integers modulo 65537.
#[derive(Clone, Copy, Debug, Default, PartialEq, Eq)]
pub struct Word(u32);

const P: u32 = 65537;

impl Add for Word {
    type Output = Self;
    #[inline(always)]
    fn add(self, other: Self) -> Self {
        let sum = self.0 + other.0;
        Word(if sum < P { sum } else { sum - P })
    }
}

impl Sub for Word {
    type Output = Self;
    #[inline(always)]
    fn sub(self, other: Self) -> Self {
        let rest = self.0 + P - other.0;
        Word(if rest < P { rest } else { rest - P })
    }
}

impl Mul for Word {
    type Output = Self;
    #[inline(always)]
    fn mul(self, other: Self) -> Self {
        Word((u64::from(self.0) * u64::from(other.0) % u64::from(P)) as u32)
    }
}

impl Word {
    /// Any number, reduced.
    pub fn reduced(number: u32) -> Self {
        Word(number % P)
    }
}

impl Field for Word {
    const ZERO: Self = Word(0);
    const SIZE: u32 = P;
    const MARKS: usize = 65536;

    fn mark(j: usize) -> Self {
        Word(j as u32)
    }

    /// Keeps factor · self = a; a at least halves until it is 1.
    fn inverse(self) -> Self {
        let (mut a, mut factor) = (self.0, Word(1));
        while a > 1 {
            let (quotient, rest) = (P / a, P % a);
            if rest <= a - rest {
                (a, factor) = (rest, Word::ZERO - factor * Word(quotient));
            } else {
                (a, factor) = (a - rest, factor * Word(quotient + 1));
            }
        }
        factor
    }

    fn number(self) -> u32 {
        self.0
    }

    fn symbol(number: u32) -> Self {
        Word(number)
    }
}

#[cfg(test)]
mod tests {
    use super::*;

    fn inverses<F: Field>(numbers: impl Iterator<Item = u32>) {
        let one = F::symbol(1);
        for n in numbers {
            let x = F::symbol(n);
            assert_eq!(x * x.inverse(), one, "{n}");
            assert_eq!(x + (F::ZERO - x), F::ZERO);
            assert_eq!(x.number(), n);
        }
    }

    #[test]
    fn inverses_of_all() {
        inverses::<Five>(1..5);
        inverses::<Four>(1..4);
        inverses::<Byte>(1..256);
        inverses::<Word>(1..65537);
    }

    #[test]
    fn products_of_the_standard() {
        assert_eq!(Byte(0x57) * Byte(0x83), Byte(0xc1));
        assert_eq!(Byte(0x57) * Byte(0x13), Byte(0xfe));
    }

    #[test]
    fn marks_are_distinct() {
        let marks = |all: Vec<u32>| {
            let mut all = all;
            all.sort_unstable();
            all.dedup();
            (all.len(), all[0])
        };
        assert_eq!(
            marks((1..=4).map(|j| Five::mark(j).number()).collect()),
            (4, 1)
        );
        assert_eq!(
            marks((1..=3).map(|j| Four::mark(j).number()).collect()),
            (3, 1)
        );
        assert_eq!(
            marks((1..=255).map(|j| Byte::mark(j).number()).collect()),
            (255, 1)
        );
    }

    #[test]
    fn edges_of_words() {
        let top = Word(65536);
        assert_eq!(top * top, Word(1));
        assert_eq!(top + top, Word(65535));
        assert_eq!(Word::ZERO - Word(1), top);
    }
}
