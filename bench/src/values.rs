//! What a line carries in the circuit without the fault and in the one with it.
//!
//! Every kind keeps four bits: that the good level can be 0, that it can be 1, and the same two of the faulty level. A half with
//! both bits is unknown. The kinds differ in which unknown halves they keep.

use crate::circuit::Join;
use std::fmt::Debug;

/// The joins by join, left and right value: a lookup needs no branch, and mixed gates would be hard to predict.
pub type JoinTable<V> = [V; 2048];

#[inline(always)]
const fn join_index(join: Join, left: u8, right: u8) -> usize {
    ((join as usize) << 8 | (left as usize) << 4 | right as usize) % 2048
}

pub trait ValueKind: Copy + Debug + PartialEq {
    const UNKNOWN: Self;
    fn known(level: bool) -> Self;
    fn not(self) -> Self;
    fn and(self, other: Self) -> Self;
    fn or(self, other: Self) -> Self;
    fn xor(self, other: Self) -> Self;
    /// What the join gives of two values.
    fn join(join: Join, left: Self, right: Self) -> Self;
    /// Puts the level for the faulty level.
    fn stick(self, level: bool) -> Self;
    /// Whether the two levels are known and unequal.
    fn shows(self) -> bool;
    /// Whether the two levels are known and equal.
    fn still(self) -> bool;
}

/// The bits for level 0 of both halves.
const ZEROS: u8 = 0b0101;
/// The bits for level 1 of both halves.
const ONES: u8 = 0b1010;
const GOOD: u8 = 0b0011;
const ALL: u8 = 0b1111;

#[inline(always)]
const fn not(value: u8) -> u8 {
    (value & ZEROS) << 1 | (value & ONES) >> 1
}

#[inline(always)]
const fn and(left: u8, right: u8) -> u8 {
    left & right | (left | right) & ZEROS
}

#[inline(always)]
const fn or(left: u8, right: u8) -> u8 {
    left & right | (left | right) & ONES
}

#[inline(always)]
const fn xor(left: u8, right: u8) -> u8 {
    let equal = left & right;
    let unequal = left & not(right);
    (equal | equal >> 1) & ZEROS | (unequal | unequal << 1) & ONES
}

#[inline(always)]
fn stick(value: u8, level: bool) -> u8 {
    value & GOOD | 0b0100 << u8::from(level)
}

#[inline(always)]
fn is_one_of(value: u8, first: u8, second: u8) -> bool {
    (1u16 << first | 1 << second) >> value & 1 != 0
}

macro_rules! kind {
    ($(#[$attribute:meta])* $name:ident, $value:ident => $narrowed:expr) => {
        $(#[$attribute])*
        #[derive(Clone, Copy, Debug, PartialEq, Eq)]
        pub struct $name(u8);

        impl $name {
            const JOINS: JoinTable<Self> = {
                let mut joins = [$name(ALL); 2048];
                let mut pair = 0;
                while pair < 256 {
                    let (left, right) = (pair as u8 >> 4, pair as u8 & ALL);
                    let both = Self::narrowed(and(left, right));
                    let either = Self::narrowed(or(left, right));
                    let differ = Self::narrowed(xor(left, right));
                    joins[join_index(Join::And, left, right)] = both;
                    joins[join_index(Join::Nand, left, right)] = $name(not(both.0));
                    joins[join_index(Join::Or, left, right)] = either;
                    joins[join_index(Join::Nor, left, right)] = $name(not(either.0));
                    joins[join_index(Join::Xor, left, right)] = differ;
                    joins[join_index(Join::Xnor, left, right)] = $name(not(differ.0));
                    pair += 1;
                }
                joins
            };

            #[inline(always)]
            const fn narrowed($value: u8) -> Self {
                $name($narrowed)
            }
        }

        impl ValueKind for $name {
            const UNKNOWN: Self = $name(ALL);

            #[inline(always)]
            fn join(join: Join, left: Self, right: Self) -> Self {
                static JOINS: JoinTable<$name> = $name::JOINS;
                JOINS[join_index(join, left.0, right.0)]
            }

            #[inline(always)]
            fn known(level: bool) -> Self {
                $name(ZEROS << u8::from(level))
            }

            // The kind's sets are closed under not.
            #[inline(always)]
            fn not(self) -> Self {
                $name(not(self.0))
            }

            #[inline(always)]
            fn and(self, other: Self) -> Self {
                Self::narrowed(and(self.0, other.0))
            }

            #[inline(always)]
            fn or(self, other: Self) -> Self {
                Self::narrowed(or(self.0, other.0))
            }

            #[inline(always)]
            fn xor(self, other: Self) -> Self {
                Self::narrowed(xor(self.0, other.0))
            }

            #[inline(always)]
            fn stick(self, level: bool) -> Self {
                Self::narrowed(stick(self.0, level))
            }

            #[inline(always)]
            fn shows(self) -> bool {
                is_one_of(self.0, 0b0110, 0b1001)
            }

            #[inline(always)]
            fn still(self) -> bool {
                is_one_of(self.0, 0b0101, 0b1010)
            }
        }
    };
}

kind! {
    /// The two halves are known or unknown apart.
    Nine, value => value
}

kind! {
    /// Where the good half is unknown, the faulty half is too.
    Seven, value => value | ((value & value >> 1 & 1) * 0b1100)
}

kind! {
    /// Where one half is unknown, the other is too.
    Five, value => {
        let unknown = value & value >> 1;
        value | (((unknown | unknown >> 2) & 1) * ALL)
    }
}
