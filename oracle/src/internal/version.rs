//! Stand-ins for the version of a file and the mode of an opening.

/// Version 3 has sectors of 512 bytes, version 4 of 4,096.
#[derive(Clone, Copy, Debug, PartialEq, Eq)]
pub enum Version {
    V3,
    V4,
}

impl Version {
    /// The version with this major number, if there is one.
    pub fn from_number(number: u16) -> Option<Version> {
        [Version::V3, Version::V4].into_iter().find(|v| v.number() == number)
    }

    /// The major number.
    pub fn number(self) -> u16 {
        if self == Version::V3 {
            3
        } else {
            4
        }
    }

    /// The exponent of the sector length.
    pub fn sector_shift(self) -> u16 {
        if self == Version::V3 {
            9
        } else {
            12
        }
    }

    /// The sector length in bytes.
    pub fn sector_len(self) -> usize {
        1 << self.sector_shift()
    }
}

/// How much of a bad image is forgiven.
#[derive(Clone, Copy, Debug, PartialEq, Eq)]
pub enum Validation {
    Permissive,
    Strict,
}

impl Validation {
    /// Whether nothing is forgiven.
    pub fn is_strict(self) -> bool {
        self == Validation::Strict
    }
}
