//! Stands in for the one trait the original's `tag.rs` uses, on the one kind
//! of value it uses it on: an array of bytes on the stack.
#![no_std]
#![forbid(unsafe_code)]

pub trait Zeroize {
    fn zeroize(&mut self);
}

impl<const N: usize> Zeroize for [u8; N] {
    fn zeroize(&mut self) {
        self.fill(0);
    }
}
