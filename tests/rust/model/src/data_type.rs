//! The data types of a column: RULES.md 4.3.

#[derive(Clone, Copy, Debug, PartialEq, Eq)]
pub enum DataType {
    Bool,
    UChar,
    Short,
    UShort,
    Int,
    UInt,
    Float,
    Double,
    Complex,
    DComplex,
    String,
    Int64,
}

impl DataType {
    /// The type that RULES.md 4.3 spells so.
    pub fn from_name(name: &[u8]) -> Option<Self> {
        Some(match name {
            b"Bool" => Self::Bool,
            b"uChar" => Self::UChar,
            b"Short" => Self::Short,
            b"uShort" => Self::UShort,
            b"Int" => Self::Int,
            b"uInt" => Self::UInt,
            b"float" => Self::Float,
            b"double" => Self::Double,
            b"Complex" => Self::Complex,
            b"DComplex" => Self::DComplex,
            b"String" => Self::String,
            b"Int64" => Self::Int64,
            _ => return None,
        })
    }

    pub fn name(self) -> &'static str {
        match self {
            Self::Bool => "Bool",
            Self::UChar => "uChar",
            Self::Short => "Short",
            Self::UShort => "uShort",
            Self::Int => "Int",
            Self::UInt => "uInt",
            Self::Float => "float",
            Self::Double => "double",
            Self::Complex => "Complex",
            Self::DComplex => "DComplex",
            Self::String => "String",
            Self::Int64 => "Int64",
        }
    }

    /// The number in Casacore's DataType.h.
    pub fn number(self) -> i32 {
        match self {
            Self::Bool => 0,
            Self::UChar => 2,
            Self::Short => 3,
            Self::UShort => 4,
            Self::Int => 5,
            Self::UInt => 6,
            Self::Float => 7,
            Self::Double => 8,
            Self::Complex => 9,
            Self::DComplex => 10,
            Self::String => 11,
            Self::Int64 => 29,
        }
    }

    /// The bits of one element in a bucket; none for a String, whose bits
    /// depend on the column.
    pub fn element_bits(self) -> Option<u32> {
        Some(match self {
            Self::Bool => 1,
            Self::UChar => 8,
            Self::Short | Self::UShort => 16,
            Self::Int | Self::UInt | Self::Float => 32,
            Self::Double | Self::Complex | Self::Int64 => 64,
            Self::DComplex => 128,
            Self::String => return None,
        })
    }
}
