//! Stands for the external crate `libc`, of which the original uses one constant.

pub const MADV_DONTNEED: i32 = 4;
