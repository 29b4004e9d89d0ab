//! The versions of a chart file, and what hangs on them: how many bytes a constant has, and whether there may be spare
//! locations.

use crate::limits::{LARGEST_CONSTANT, LARGEST_CONSTANT_VERSION_1};

/// The version of a chart. The values are the file's version bytes.
#[derive(Clone, Copy, Debug, PartialEq, Eq)]
#[repr(u8)]
pub enum Version {
    /// Constants of two bytes.
    One = 1,
    /// Constants of four bytes.
    Two = 2,
    /// Constants of four bytes, and spare locations are allowed.
    Three = 3,
}

impl Version {
    pub const ALL: [Version; 3] = [Version::One, Version::Two, Version::Three];

    /// The version of a byte; none for one that is not 1 to 3.
    #[inline]
    pub const fn from_byte(byte: u8) -> Option<Self> {
        match byte {
            1 => Some(Version::One),
            2 => Some(Version::Two),
            3 => Some(Version::Three),
            0 | 4..=255 => None,
        }
    }

    /// Whether a chart may have spare locations: such as no path from the initial one reaches (document 02, P7).
    #[inline]
    pub const fn allows_spare(self) -> bool {
        match self {
            Version::One | Version::Two => false,
            Version::Three => true,
        }
    }

    /// The largest constant of a test.
    #[inline]
    pub const fn largest_constant(self) -> u32 {
        match self {
            Version::One => LARGEST_CONSTANT_VERSION_1,
            Version::Two | Version::Three => LARGEST_CONSTANT,
        }
    }

    /// The bytes of a test: its timer, its code and its constant.
    #[inline]
    pub const fn test_length(self) -> u16 {
        match self {
            Version::One => 4,
            Version::Two | Version::Three => 6,
        }
    }

    /// A record's length without its first two bytes, by its numbers of starts and of tests.
    #[inline]
    pub fn record_length(self, starts: u8, tests: u8) -> u16 {
        7 + u16::from(starts) + self.test_length() * u16::from(tests)
    }
}
