//! Faults of an AipsIO object's mark and header, for objects of any file.
//!
//! Each function changes a good object and says what a reader must answer by
//! RULES.md 3.4 and 3.5, the object's fields being judged.

use crate::layout::{Blame, OBJECT_NAME, OBJECT_VERSION, Part};
use crate::rng::Rng;
use crate::table::{Header, Text};

/// What a reader must answer.
#[derive(Clone, Copy, Debug, PartialEq, Eq)]
pub enum Expect {
    Accepted,
    /// With this number, and where.
    Refused(u8, Blame),
    /// It depends on the other fields.
    Open,
}

use Expect::{Accepted, Refused};

/// A wrong chain of buckets, and a wrong map or bucket: no field is blamed.
pub const WRONG_CHAIN: Expect = Refused(10, Blame::Nothing);
pub const WRONG_MAP: Expect = Refused(11, Blame::Nothing);

impl Expect {
    /// The byte in place of what is blamed.
    pub fn at_byte(self, byte: impl FnOnce(Blame) -> usize) -> Self {
        match self {
            Refused(number, blame) => Refused(number, Blame::Byte(byte(blame))),
            expect => expect,
        }
    }
}

/// The sign of an Int64.
pub const SIGN: u64 = 1 << 63;

/// A number other than the good ones, often next to one.
pub fn other_uint(rng: &mut Rng, good: &[u32]) -> u32 {
    loop {
        let number = match rng.below(5) {
            0 => rng.pick(good).wrapping_add(1),
            1 => rng.pick(good).wrapping_sub(1),
            2 => rng.below(6) as u32,
            3 => rng.pick(&[u32::MAX, 0x8000_0000, 0x0100_0000, 256, 0x7FFF_FFFF]) | good[0],
            _ => rng.uint(),
        };
        if !good.contains(&number) {
            return number;
        }
    }
}

/// The mark before the object of this part.
pub fn mark(rng: &mut Rng, of: Part, mark: &mut [u8; 4]) -> Expect {
    let index = rng.below(4);
    mark[index] ^= rng.within(1..=255) as u8;
    Refused(2, of.field("mark"))
}

/// Changes a name a little.
pub fn misspell(rng: &mut Rng, name: &mut Text) {
    let bytes = &mut name.bytes;
    if bytes.is_empty() {
        bytes.push(b'T');
    }
    match rng.below(7) {
        0 => bytes[0] ^= 0x20, // the other case
        1 => drop(bytes.pop()),
        2 => bytes.push(b' '),
        3 => bytes.push(0),
        4 => bytes.clear(),
        5 => {
            let index = rng.below(bytes.len());
            bytes[index] ^= rng.within(1..=255) as u8;
        }
        _ => drop(bytes.remove(0)),
    }
}

/// An object to spoil.
pub struct Target<'a> {
    pub of: Part,
    pub header: &'a mut Header,
    pub length: usize,
    /// The bytes from its start to its container's end.
    pub room: usize,
}

impl Target<'_> {
    /// A misspelt name, or another object's.
    pub fn name(self, rng: &mut Rng, names: &[&str]) -> Expect {
        let header = self.header;
        if rng.chance(1, 3) {
            let others: Vec<&str> =
                names.iter().copied().filter(|name| name.as_bytes() != header.name.bytes).collect();
            header.name = rng.pick(&others).into();
        } else {
            misspell(rng, &mut header.name);
        }
        Refused(2, self.of.field(OBJECT_NAME))
    }

    /// A version other than the good ones.
    pub fn version(self, rng: &mut Rng, good: &[u32]) -> Expect {
        self.header.version = other_uint(rng, good);
        Refused(3, self.of.field(OBJECT_VERSION))
    }

    pub fn past_container(self, rng: &mut Rng) -> Expect {
        let room = self.room as u32;
        self.header.stated = Some(rng.pick(&[
            room + 1,
            room + 1,
            room + 2,
            room + 100,
            0x7FFF_FFFF,
            0x8000_0000,
            u32::MAX,
        ]));
        Refused(1, self.of.header())
    }

    /// The object takes in what follows it.
    pub fn to_container_end(self) -> Expect {
        self.header.stated = Some(self.room as u32);
        if self.room == self.length { Accepted } else { Refused(7, self.of.header()) }
    }

    /// A length that leaves out some of the fields; the object has some.
    pub fn too_short(self, rng: &mut Rng) -> Expect {
        self.header.stated = Some((self.length - self.some_bytes(rng)) as u32);
        Refused(1, Blame::Past(self.of))
    }

    pub fn below_header(self, rng: &mut Rng) -> Expect {
        let size = self.header.size();
        self.header.stated = Some(match rng.below(3) {
            0 => size as u32 - 1,
            1 => 0,
            _ => rng.below(size) as u32,
        });
        Refused(7, self.of.header())
    }

    /// Bytes left over at the object's end.
    pub fn with_extra(self, rng: &mut Rng) -> Expect {
        let count = rng.pick(&[1, 1, 2, 4, 8, 50]);
        self.header.extra = if rng.chance(1, 2) { vec![0; count] } else { rng.bytes(count) };
        Refused(7, self.of.header())
    }

    /// Fields cut off the object's end; the object has some.
    pub fn cut(self, rng: &mut Rng) -> Expect {
        self.header.cut = self.some_bytes(rng);
        Refused(1, Blame::Past(self.of))
    }

    /// Few or many of the bytes of the object's fields; at least one.
    fn some_bytes(&self, rng: &mut Rng) -> usize {
        let fields = (self.length - self.header.size()).max(1);
        if rng.chance(1, 2) { rng.within(1..=fields.min(8)) } else { rng.within(1..=fields) }
    }

    /// At a header: name, version, its end against its container, its own size.
    pub fn several(self, rng: &mut Rng, versions: &[u32]) -> Expect {
        let Self { of, header, room, .. } = self;
        let size = header.size();
        let mut expect = Accepted;
        // From the last to the first in this order: the first one decides.
        if rng.chance(1, 2) {
            header.stated = Some(size as u32 - 1);
            expect = Refused(7, of.header());
        } else if rng.chance(1, 2) {
            header.stated = Some(room as u32 + 1);
            expect = Refused(1, of.header());
        }
        if rng.chance(2, 3) {
            header.version = other_uint(rng, versions);
            expect = Refused(3, of.field(OBJECT_VERSION));
        }
        if rng.chance(1, 2) {
            header.name.bytes.reverse();
            expect = Refused(2, of.field(OBJECT_NAME));
        }
        expect
    }
}
