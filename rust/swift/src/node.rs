//! A node as one number.
//!
//! A variable is its own number, 0 to 63. Another node has its kind in the two highest
//! bits and its symbol in the eight below; these ten are its name. A power has a in the
//! next 27 bits and b in the last 27; a symbol has zeros there.
//!
//! The name is laid out as tag and symbol are in a file.
//!
//! 27 bits are enough. In a file a and b lie below 4,096. Reindexed by i and j below
//! 4,096 they lie below 2^24. A power drops out only by (0, 0), where the others have
//! a = 0 and b as in the file; so either up to 256 numbers below 4,096 are added up, or
//! one below 2^24 and one below 4,096.

/// Numbers below this are variables.
pub const VARIABLES: u64 = 64;
/// "Tag 2: power". Tag 3 is refused, so a power is a node with the highest bit.
const POWER: u64 = 2 << 62;

const EXPONENT_BITS: u32 = 27;
const NAME_FROM: u32 = 2 * EXPONENT_BITS;
const EXPONENTS: u64 = (1 << NAME_FROM) - 1;
const B: u64 = (1 << EXPONENT_BITS) - 1;

/// a and b in a file.
const FILE_BITS: u32 = 12;
pub const FILE_B: u64 = (1 << FILE_BITS) - 1;

/// A symbol without its arguments, from a file's bits that begin with its tag.
#[inline(always)]
pub fn symbol_in(bits: u64) -> u64 {
    bits & !EXPONENTS
}

/// a and b, one beside the other, as a file has them; from its bits that begin with a
/// power's tag.
#[inline(always)]
pub fn exponents_in(bits: u64) -> u64 {
    bits >> (64 - 2 - 8 - 2 * FILE_BITS) & ((1 << (2 * FILE_BITS)) - 1)
}

/// A power, from a file's bits that begin with its tag. By the product a moves from behind
/// 12 bits to behind 27.
#[inline(always)]
pub fn power_in(bits: u64) -> u64 {
    let exponents = exponents_in(bits);
    let a = exponents >> FILE_BITS;
    symbol_in(bits) + (exponents + a * ((1 << EXPONENT_BITS) - (1 << FILE_BITS)))
}

/// Kind and symbol.
#[inline(always)]
pub fn name(node: u64) -> u64 {
    node >> NAME_FROM
}

#[inline(always)]
pub fn is_power(node: u64) -> bool {
    node >= POWER
}

/// a and b, one beside the other.
#[inline(always)]
pub fn exponents(node: u64) -> u64 {
    node & EXPONENTS
}

/// Is a = 0, as it is in variables and symbols?
pub fn is_level(node: u64) -> bool {
    exponents(node) <= B
}

/// An index pair as one number, laid out as a and b are.
pub const fn pair(i: u64, j: u64) -> u64 {
    i << EXPONENT_BITS | j
}

/// "s^{a,b} becomes s^{a·i, a·j+b}".
#[inline(always)]
pub fn reindexed(power: u64, pair: u64) -> u64 {
    let a = exponents(power) >> EXPONENT_BITS;
    (power & !EXPONENTS) + (a * pair + (power & B))
}
