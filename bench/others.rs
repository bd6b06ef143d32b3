//! libsodium and libb2, each where bench/run has found it (`--cfg sodium`, `--cfg b2`). Their states are as large as their headers say, or larger.
#![allow(dead_code)]

pub type Digest = [u8; 32];

#[repr(C, align(64))]
struct State([u8; 512]);

#[cfg(sodium)]
pub mod sodium {
    use super::{Digest, State};
    use std::ptr::null;

    #[link(name = "sodium")]
    extern "C" {
        fn sodium_init() -> i32;
        fn crypto_generichash_blake2b(
            out: *mut Digest,
            out_len: usize,
            message: *const u8,
            len: u64,
            key: *const u8,
            key_len: usize,
        ) -> i32;
        fn crypto_generichash_blake2b_init(state: *mut State, key: *const u8, key_len: usize, out_len: usize) -> i32;
        fn crypto_generichash_blake2b_update(state: *mut State, part: *const u8, len: u64) -> i32;
        fn crypto_generichash_blake2b_final(state: *mut State, out: *mut Digest, out_len: usize) -> i32;
    }

    /// Picks the fastest code for this processor.
    pub fn start() {
        assert!(unsafe { sodium_init() } >= 0, "libsodium does not start");
    }

    pub fn whole(message: &[u8]) -> Digest {
        let mut out = [0; 32];
        unsafe { crypto_generichash_blake2b(&mut out, 32, message.as_ptr(), message.len() as u64, null(), 0) };
        out
    }

    pub fn parts(prefix: &[u8], body: &[u8]) -> Digest {
        let (mut out, mut state) = ([0; 32], State([0; 512]));
        unsafe {
            crypto_generichash_blake2b_init(&mut state, null(), 0, 32);
            crypto_generichash_blake2b_update(&mut state, prefix.as_ptr(), prefix.len() as u64);
            crypto_generichash_blake2b_update(&mut state, body.as_ptr(), body.len() as u64);
            crypto_generichash_blake2b_final(&mut state, &mut out, 32);
        }
        out
    }
}

#[cfg(b2)]
pub mod b2 {
    use super::{Digest, State};
    use std::ptr::null;

    #[link(name = "b2")]
    extern "C" {
        fn blake2b(out: *mut Digest, message: *const u8, key: *const u8, out_len: usize, len: usize, key_len: usize) -> i32;
        fn blake2b_init(state: *mut State, out_len: usize) -> i32;
        fn blake2b_update(state: *mut State, part: *const u8, len: usize) -> i32;
        fn blake2b_final(state: *mut State, out: *mut Digest, out_len: usize) -> i32;
    }

    pub fn whole(message: &[u8]) -> Digest {
        let mut out = [0; 32];
        unsafe { blake2b(&mut out, message.as_ptr(), null(), 32, message.len(), 0) };
        out
    }

    pub fn parts(prefix: &[u8], body: &[u8]) -> Digest {
        let (mut out, mut state) = ([0; 32], State([0; 512]));
        unsafe {
            blake2b_init(&mut state, 32);
            blake2b_update(&mut state, prefix.as_ptr(), prefix.len());
            blake2b_update(&mut state, body.as_ptr(), body.len());
            blake2b_final(&mut state, &mut out, 32);
        }
        out
    }
}
