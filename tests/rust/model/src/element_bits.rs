//! The bits of one element by its type's number, as cases in the order of the
//! table in Note 260, 3.4.2. The numbers are those of RULES.md 4.3.

/// The bits of an element; 0 for a String, which has none of its own, and for
/// every number that is no type's, those of arrays too.
///
/// The note's table has a byte for a Bool, but its text stores Bools as bits;
/// its single byte for a Short is a misprint (RULES.md 1.2).
pub fn element_bits(number: i64) -> u64 {
    match number {
        0 => 1,    // Bool
        2 => 8,    // uChar
        3 => 16,   // Short
        4 => 16,   // uShort
        5 => 32,   // Int
        6 => 32,   // uInt
        29 => 64,  // Int64
        7 => 32,   // Float
        8 => 64,   // Double
        9 => 64,   // Complex
        10 => 128, // DComplex
        _ => 0,
    }
}
