//! What the test files share.

use mdlist_host::*;

pub fn fresh(d: u32, k: u32, c: u32) -> Vec<u32> {
    let mut list = vec![0; words_needed(d, c)];
    assert_eq!(set_up(d, k, c, &mut list), Ok(()));
    list
}

/// The key of an entry: docs/REFERENCE.md, *Entries*. Not every test file has entries.
#[allow(dead_code)]
pub fn entry_key(class: u32, unit: u32, serial: u32) -> u32 {
    class * 268_435_456 + unit * 4_096 + serial
}

/// A small generator of numbers, so that the tests need no package.
pub struct Dice(pub u64);

impl Dice {
    pub fn below(&mut self, n: u64) -> u64 {
        self.0 = self.0.wrapping_mul(6_364_136_223_846_793_005).wrapping_add(1_442_695_040_888_963_407);
        (self.0 >> 33) % n
    }
}
