//! Numbers of the steps.

pub const RESET: u64 = 0;
pub const WRITE: u64 = 1;
pub const SET: u64 = 2;
pub const CLEAR: u64 = 3;
pub const READ: u64 = 4;
pub const RAISE: u64 = 5;
pub const LINES: u64 = 6;
pub const TAKE: u64 = 7;
pub const MRET: u64 = 8;
pub const SRET: u64 = 9;
pub const WFI: u64 = 10;
pub const ECALL: u64 = 11;
pub const EBREAK: u64 = 12;
pub const ADVANCE: u64 = 13;
pub const FETCH: u64 = 14;
pub const LOAD: u64 = 15;
pub const STORE: u64 = 16;
pub const ELAPSED: u64 = 17;
