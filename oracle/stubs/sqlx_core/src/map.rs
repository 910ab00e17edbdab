//! The standard library's map with a fast hasher. sqlx-core's own map has a fast one too; the standard
//! library's default would make the original look slower than it is.
use std::collections::HashMap as Std;
use std::hash::{BuildHasherDefault, Hash, Hasher};
use std::ops::{Deref, DerefMut};

type Inner<K, V> = Std<K, V, BuildHasherDefault<MultiplyXor>>;

/// A type of its own, since `new` of the standard map is for its default hasher alone.
#[derive(Debug, Clone)]
pub struct HashMap<K, V>(Inner<K, V>);

impl<K: Eq + Hash, V> HashMap<K, V> {
    #[allow(clippy::new_without_default)]
    pub fn new() -> Self {
        HashMap(Inner::default())
    }
}

impl<K, V> Deref for HashMap<K, V> {
    type Target = Inner<K, V>;
    fn deref(&self) -> &Inner<K, V> {
        &self.0
    }
}

impl<K, V> DerefMut for HashMap<K, V> {
    fn deref_mut(&mut self) -> &mut Inner<K, V> {
        &mut self.0
    }
}

/// One multiplication and two exclusive ors for each number that is hashed.
#[derive(Default, Clone, Copy)]
pub struct MultiplyXor(u64);

const ODD: u64 = 0x9e37_79b9_7f4a_7c15;

impl MultiplyXor {
    #[inline(always)]
    fn take(&mut self, x: u64) {
        let product = u128::from(self.0 ^ x ^ ODD) * u128::from(ODD);
        self.0 = (product as u64) ^ ((product >> 64) as u64);
    }
}

impl Hasher for MultiplyXor {
    #[inline]
    fn finish(&self) -> u64 {
        self.0.wrapping_mul(ODD).rotate_left(29)
    }
    #[inline]
    fn write(&mut self, bytes: &[u8]) {
        for part in bytes.chunks(8) {
            let mut word = [0; 8];
            word[..part.len()].copy_from_slice(part);
            self.take(u64::from_le_bytes(word));
        }
    }
    #[inline]
    fn write_u8(&mut self, x: u8) {
        self.take(u64::from(x));
    }
    #[inline]
    fn write_u32(&mut self, x: u32) {
        self.take(u64::from(x));
    }
    #[inline]
    fn write_u64(&mut self, x: u64) {
        self.take(x);
    }
    #[inline]
    fn write_usize(&mut self, x: usize) {
        self.take(x as u64);
    }
    #[inline]
    fn write_i64(&mut self, x: i64) {
        self.take(x as u64);
    }
    #[inline]
    fn write_isize(&mut self, x: isize) {
        self.take(x as u64);
    }
}
