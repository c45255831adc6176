//! "A count of registers, a count of eightbytes and a byte offset are kept
//! apart throughout: gp_offset and fp_offset are bytes, num_gp and num_fp are
//! registers."

use std::ops::{Add, AddAssign};

/// A count of registers, or the number of one of them.
#[derive(Clone, Copy, Debug, Default, PartialEq, Eq, PartialOrd, Ord, Hash)]
pub struct Registers(pub usize);

/// A count of eightbytes, or the number of one of them.
#[derive(Clone, Copy, Debug, Default, PartialEq, Eq, PartialOrd, Ord, Hash)]
pub struct Eightbytes(pub usize);

/// A count of bytes, or an offset in bytes.
#[derive(Clone, Copy, Debug, Default, PartialEq, Eq, PartialOrd, Ord, Hash)]
pub struct Bytes(pub usize);

impl Registers {
    /// Room of so many general registers: eight bytes each.
    pub fn general_room(self) -> Bytes {
        Bytes(8 * self.0)
    }

    /// Room of so many vector registers: sixteen bytes each.
    pub fn vector_room(self) -> Bytes {
        Bytes(16 * self.0)
    }
}

impl Eightbytes {
    /// Where the eightbyte of this number begins.
    pub fn start(self) -> Bytes {
        Bytes(8 * self.0)
    }
}

impl Bytes {
    /// The lowest multiple of `multiple` that is not below this number.
    pub fn raised_to(self, multiple: Bytes) -> Bytes {
        Bytes(self.0.div_ceil(multiple.0) * multiple.0)
    }

    /// The eightbyte that the byte at this offset lies in.
    pub fn eightbyte(self) -> Eightbytes {
        Eightbytes(self.0 / 8)
    }

    /// How many eightbytes so many bytes need.
    pub fn eightbytes(self) -> Eightbytes {
        Eightbytes(self.0.div_ceil(8))
    }
}

impl Add for Registers {
    type Output = Registers;
    fn add(self, other: Registers) -> Registers {
        Registers(self.0 + other.0)
    }
}

impl AddAssign for Registers {
    fn add_assign(&mut self, other: Registers) {
        self.0 += other.0;
    }
}

impl Add for Bytes {
    type Output = Bytes;
    fn add(self, other: Bytes) -> Bytes {
        Bytes(self.0 + other.0)
    }
}

impl AddAssign for Bytes {
    fn add_assign(&mut self, other: Bytes) {
        self.0 += other.0;
    }
}
