//! The numbers that reader and writer share, so that each has one name.
//! The makers of cases do not use them: they type what they need once more.

use std::ops::RangeInclusive;

/// Types of TLVs (L3 to L5, L7, T1, T10, S1 to S3).
pub const END: u8 = 0;
pub const CHASSIS: u8 = 1;
pub const PORT: u8 = 2;
pub const SECONDS: u8 = 3;
pub const DESCRIPTION: u8 = 4;
pub const SYSTEM_NAME: u8 = 5;
pub const SYSTEM_DESCRIPTION: u8 = 6;
pub const CAPABILITIES: u8 = 7;
pub const MANAGEMENT: u8 = 8;
pub const ORGANIZATION: u8 = 127;

/// Subtypes of a chassis ID (L3).
pub const ADDRESS: u8 = 4;
pub const LOCAL: u8 = 7;

/// The code of TTC, and the subtypes of its fields (T1, T2, T7, T8, T11).
pub const TTC: [u8; 3] = [0xE0, 0x27, 0x1A];
pub const DEVICE: u8 = 1;
pub const LINK: u8 = 2;
pub const LIST: u8 = 3;
pub const EXTENSION: u8 = 4;

/// IDs of device information (T3, T6).
pub const CATEGORY: u8 = 1;
pub const MANUFACTURER: u8 = 2;
pub const MODEL_NAME: u8 = 3;
pub const MODEL_NUMBER: u8 = 4;
pub const VENDOR: u8 = 255;

/// The right lengths of a system name or a system description, and of a management address (S1,
/// S3), and how many of these addresses there may be (S5).
pub const TEXT_LENGTHS: RangeInclusive<usize> = 0..=255;
pub const MANAGEMENT_LENGTHS: RangeInclusive<usize> = 9..=167;
pub const MOST_MANAGEMENT: usize = 4;
