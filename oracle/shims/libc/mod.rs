//! Stands for the original's own `libc` module, of which the memory calls are used.

pub mod mem;
