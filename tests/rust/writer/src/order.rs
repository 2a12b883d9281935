//! The byte order of the numbers in a file or an object.

#[derive(Clone, Copy, Debug, Default, PartialEq, Eq)]
pub enum Order {
    #[default]
    Big,
    Little,
}

impl Order {
    /// Of a table with this endianness.
    pub fn of(endianness: u32) -> Self {
        if endianness == 0 { Self::Little } else { Self::Big }
    }

    pub fn other(self) -> Self {
        match self {
            Self::Big => Self::Little,
            Self::Little => Self::Big,
        }
    }

    /// The big endian bytes of one number in this order.
    pub fn turn<const N: usize>(self, mut bytes: [u8; N]) -> [u8; N] {
        if self == Self::Little {
            bytes.reverse();
        }
        bytes
    }

    /// The bytes of a number.
    pub fn number(self, number: u32) -> [u8; 4] {
        self.turn(number.to_be_bytes())
    }
}
