//! Stand-in for ahash: std's maps under a quick hasher with a fixed start, so that a run can be repeated.
use std::collections::{hash_map, HashMap, HashSet};
use std::hash::{BuildHasherDefault, Hash, Hasher};
use std::ops::{Deref, DerefMut};

/// Folds 64-bit words by a full multiplication. Each write begins with its length: `Tag::hash` of the Rust sets no border
/// between a value and the next key, so under a hasher that merely joins what is written {a="x",b=""} and {a="",xb=""}
/// would be one key. Framing keeps them apart, as document 01's comparison of full tags does.
#[derive(Clone, Copy, Default)]
pub struct FramedHasher(u64);

impl FramedHasher {
    #[inline]
    fn fold(&mut self, word: u64) {
        let product = u128::from(self.0 ^ 0x243f_6a88_85a3_08d3) * u128::from(word ^ 0x9e37_79b9_7f4a_7c15);
        self.0 = (product as u64) ^ ((product >> 64) as u64) ^ self.0.rotate_left(23);
    }
}

impl Hasher for FramedHasher {
    #[inline]
    fn write(&mut self, bytes: &[u8]) {
        self.fold(bytes.len() as u64);
        for chunk in bytes.chunks(8) {
            let mut word = [0; 8];
            word[..chunk.len()].copy_from_slice(chunk);
            self.fold(u64::from_le_bytes(word));
        }
    }

    #[inline]
    fn write_u8(&mut self, byte: u8) {
        self.fold(u64::from(byte));
    }

    #[inline]
    fn write_u64(&mut self, word: u64) {
        self.fold(word);
    }

    #[inline]
    fn finish(&self) -> u64 {
        let mut last = *self;
        last.fold(0x1319_8a2e_0370_7344);
        last.0
    }
}

type Build = BuildHasherDefault<FramedHasher>;

#[derive(Clone, Debug)]
pub struct AHashMap<K, V>(HashMap<K, V, Build>);

impl<K, V> AHashMap<K, V> {
    pub fn with_capacity(n: usize) -> Self {
        AHashMap(HashMap::with_capacity_and_hasher(n, Build::default()))
    }

    pub fn into_values(self) -> hash_map::IntoValues<K, V> {
        self.0.into_values()
    }
}

impl<K, V> Default for AHashMap<K, V> {
    fn default() -> Self {
        AHashMap::with_capacity(0)
    }
}

impl<K, V> Deref for AHashMap<K, V> {
    type Target = HashMap<K, V, Build>;

    fn deref(&self) -> &Self::Target {
        &self.0
    }
}

impl<K, V> DerefMut for AHashMap<K, V> {
    fn deref_mut(&mut self) -> &mut Self::Target {
        &mut self.0
    }
}

impl<K, V> IntoIterator for AHashMap<K, V> {
    type Item = (K, V);
    type IntoIter = hash_map::IntoIter<K, V>;

    fn into_iter(self) -> Self::IntoIter {
        self.0.into_iter()
    }
}

pub struct AHashSet<T>(HashSet<T, Build>);

impl<T> Deref for AHashSet<T> {
    type Target = HashSet<T, Build>;

    fn deref(&self) -> &Self::Target {
        &self.0
    }
}

impl<T: Eq + Hash> FromIterator<T> for AHashSet<T> {
    fn from_iter<I: IntoIterator<Item = T>>(iter: I) -> Self {
        AHashSet(HashSet::from_iter(iter))
    }
}
