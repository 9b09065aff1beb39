//! Stand-in for the crate `commonware_cryptography`: the check of a page. `Crc32` is CRC-32C of RFC 3720, with a switch to
//! the sum of the older units.

use std::sync::atomic::{AtomicBool, Ordering};

static SUM: AtomicBool = AtomicBool::new(false);

/// Goes by the sum of the older units from now on, or by CRC-32C.
pub fn choose_sum(sum: bool) {
    SUM.store(sum, Ordering::Relaxed);
}

pub struct Crc32;

impl Crc32 {
    pub fn checksum(bytes: &[u8]) -> u32 {
        if SUM.load(Ordering::Relaxed) {
            older_sum(bytes)
        } else {
            crc32c(bytes)
        }
    }
}

pub mod crc32 {
    pub struct Digest;

    impl commonware_codec::FixedSize for Digest {
        const SIZE: usize = 4;
    }
}

/// The sum over all places k from 0 of (k + 1) * (byte + 1), modulo 2^32.
fn older_sum(bytes: &[u8]) -> u32 {
    let mut sum = 0u32;
    for (place, byte) in bytes.iter().enumerate() {
        let weight = (place as u32).wrapping_add(1);
        sum = sum.wrapping_add(weight.wrapping_mul(u32::from(*byte) + 1));
    }
    sum
}

const TABLE: [u32; 256] = {
    let mut table = [0; 256];
    let mut i = 0;
    while i < 256 {
        let mut crc = i as u32;
        let mut bit = 0;
        while bit < 8 {
            crc = if crc & 1 == 1 {
                (crc >> 1) ^ 0x82f6_3b78
            } else {
                crc >> 1
            };
            bit += 1;
        }
        table[i] = crc;
        i += 1;
    }
    table
};

/// CRC-32C (Castagnoli), with all bits reflected.
pub fn crc32c(bytes: &[u8]) -> u32 {
    let mut crc = u32::MAX;
    for byte in bytes {
        crc = (crc >> 8) ^ TABLE[((crc as u8) ^ byte) as usize];
    }
    !crc
}
