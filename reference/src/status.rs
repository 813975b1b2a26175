//! Fields of mstatus.

pub const SIE: u64 = 1 << 1;
pub const MIE: u64 = 1 << 3;
pub const SPIE: u64 = 1 << 5;
pub const MPIE: u64 = 1 << 7;
pub const SPP: u64 = 1 << 8;
pub const MPP: u64 = 3 << 11;
pub const MPRV: u64 = 1 << 17;
pub const SUM: u64 = 1 << 18;
pub const MXR: u64 = 1 << 19;
pub const TVM: u64 = 1 << 20;
pub const TW: u64 = 1 << 21;
pub const TSR: u64 = 1 << 22;

/// SXL = UXL = 2: both are read-only.
pub const FIXED: u64 = 0xA_0000_0000;
/// The part of `FIXED` that sstatus shows.
pub const UXL: u64 = 2 << 32;

const MPP_SHIFT: u32 = 11;

pub fn mpp(mstatus: u64) -> u64 {
    (mstatus & MPP) >> MPP_SHIFT
}

pub fn with_mpp(mstatus: u64, mode: u64) -> u64 {
    mstatus & !MPP | mode << MPP_SHIFT
}

/// `mstatus` with every bit of `field` set to `value`.
pub fn with(mstatus: u64, field: u64, value: bool) -> u64 {
    if value { mstatus | field } else { mstatus & !field }
}
