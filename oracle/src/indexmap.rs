//! Stand-in for the crate indexmap: a Vec of pairs with IndexMap's meaning.
//! A new key goes to the end, `swap_remove` fills the gap with the last pair, a key is found by `Eq`, one pair after the other.

use alloc::vec::Vec;
use core::fmt;

pub use self::map::Entry;

#[derive(Clone)]
pub struct IndexMap<K, V, S> {
    pairs: Vec<(K, V)>,
    _hasher: S,
}

impl<K, V, S> IndexMap<K, V, S> {
    pub fn with_capacity_and_hasher(n: usize, hasher: S) -> Self {
        IndexMap {
            pairs: Vec::with_capacity(n),
            _hasher: hasher,
        }
    }

    pub fn capacity(&self) -> usize {
        self.pairs.capacity()
    }

    pub fn reserve(&mut self, additional: usize) {
        self.pairs.reserve(additional)
    }

    pub fn len(&self) -> usize {
        self.pairs.len()
    }

    pub fn is_empty(&self) -> bool {
        self.pairs.is_empty()
    }

    pub fn clear(&mut self) {
        self.pairs.clear()
    }

    pub fn get_index(&self, index: usize) -> Option<(&K, &V)> {
        self.pairs.get(index).map(|(k, v)| (k, v))
    }

    pub fn iter(&self) -> map::Iter<'_, K, V> {
        map::Iter(self.pairs.iter())
    }

    pub fn iter_mut(&mut self) -> map::IterMut<'_, K, V> {
        map::IterMut(self.pairs.iter_mut())
    }

    pub fn keys(&self) -> map::Keys<'_, K, V> {
        map::Keys(self.pairs.iter())
    }
}

impl<K: Eq, V, S> IndexMap<K, V, S> {
    pub fn get_index_of(&self, key: &K) -> Option<usize> {
        self.pairs.iter().position(|(k, _)| k == key)
    }

    pub fn contains_key(&self, key: &K) -> bool {
        self.get_index_of(key).is_some()
    }

    pub fn get(&self, key: &K) -> Option<&V> {
        self.get_key_value(key).map(|(_, v)| v)
    }

    pub fn get_key_value(&self, key: &K) -> Option<(&K, &V)> {
        self.get_index(self.get_index_of(key)?)
    }

    pub fn get_mut(&mut self, key: &K) -> Option<&mut V> {
        let index = self.get_index_of(key)?;
        Some(&mut self.pairs[index].1)
    }

    /// The old value, if the key was there: the key and its place stay.
    pub fn insert(&mut self, key: K, value: V) -> Option<V> {
        match self.get_mut(&key) {
            Some(old) => Some(core::mem::replace(old, value)),
            None => {
                self.pairs.push((key, value));
                None
            }
        }
    }

    pub fn entry(&mut self, key: K) -> Entry<'_, K, V> {
        let index = self.get_index_of(&key);
        Entry::new(&mut self.pairs, key, index)
    }

    pub fn swap_remove(&mut self, key: &K) -> Option<V> {
        let index = self.get_index_of(key)?;
        Some(self.pairs.swap_remove(index).1)
    }
}

impl<K: fmt::Debug, V: fmt::Debug, S> fmt::Debug for IndexMap<K, V, S> {
    fn fmt(&self, f: &mut fmt::Formatter<'_>) -> fmt::Result {
        f.debug_map().entries(self.iter()).finish()
    }
}

impl<K, V, S> IntoIterator for IndexMap<K, V, S> {
    type Item = (K, V);
    type IntoIter = alloc::vec::IntoIter<(K, V)>;
    fn into_iter(self) -> Self::IntoIter {
        self.pairs.into_iter()
    }
}

impl<'a, K, V, S> IntoIterator for &'a IndexMap<K, V, S> {
    type Item = (&'a K, &'a V);
    type IntoIter = map::Iter<'a, K, V>;
    fn into_iter(self) -> Self::IntoIter {
        self.iter()
    }
}

impl<K: Eq, V, S> Extend<(K, V)> for IndexMap<K, V, S> {
    fn extend<I: IntoIterator<Item = (K, V)>>(&mut self, pairs: I) {
        for (key, value) in pairs {
            self.insert(key, value);
        }
    }
}

pub mod map {
    use super::Vec;
    use core::{fmt, slice};

    /// A key with its place, or with none.
    pub struct Entry<'a, K, V> {
        pairs: &'a mut Vec<(K, V)>,
        key: K,
        index: Option<usize>,
    }

    impl<'a, K, V> Entry<'a, K, V> {
        pub(super) fn new(pairs: &'a mut Vec<(K, V)>, key: K, index: Option<usize>) -> Self {
            Entry { pairs, key, index }
        }

        pub fn or_insert_with<F: FnOnce() -> V>(self, call: F) -> &'a mut V {
            let index = match self.index {
                Some(index) => index,
                None => {
                    self.pairs.push((self.key, call()));
                    self.pairs.len() - 1
                }
            };
            &mut self.pairs[index].1
        }

        pub fn or_default(self) -> &'a mut V
        where
            V: Default,
        {
            self.or_insert_with(V::default)
        }
    }

    pub struct Iter<'a, K, V>(pub(super) slice::Iter<'a, (K, V)>);
    pub struct Keys<'a, K, V>(pub(super) slice::Iter<'a, (K, V)>);
    pub struct IterMut<'a, K, V>(pub(super) slice::IterMut<'a, (K, V)>);

    fn pair<K, V>(p: &(K, V)) -> (&K, &V) {
        (&p.0, &p.1)
    }

    fn key<K, V>(p: &(K, V)) -> &K {
        &p.0
    }

    fn pair_mut<K, V>(p: &mut (K, V)) -> (&K, &mut V) {
        (&p.0, &mut p.1)
    }

    macro_rules! walks {
        ($name:ident, $item:ty, $part:ident) => {
            impl<'a, K, V> Iterator for $name<'a, K, V> {
                type Item = $item;
                fn next(&mut self) -> Option<Self::Item> {
                    self.0.next().map($part)
                }
                fn size_hint(&self) -> (usize, Option<usize>) {
                    self.0.size_hint()
                }
            }
            impl<'a, K, V> DoubleEndedIterator for $name<'a, K, V> {
                fn next_back(&mut self) -> Option<Self::Item> {
                    self.0.next_back().map($part)
                }
            }
            impl<'a, K, V> ExactSizeIterator for $name<'a, K, V> {}
        };
    }

    walks!(Iter, (&'a K, &'a V), pair);
    walks!(Keys, &'a K, key);
    walks!(IterMut, (&'a K, &'a mut V), pair_mut);

    impl<K, V> Clone for Iter<'_, K, V> {
        fn clone(&self) -> Self {
            Iter(self.0.clone())
        }
    }

    impl<K, V> Clone for Keys<'_, K, V> {
        fn clone(&self) -> Self {
            Keys(self.0.clone())
        }
    }

    impl<K: fmt::Debug, V: fmt::Debug> fmt::Debug for Iter<'_, K, V> {
        fn fmt(&self, f: &mut fmt::Formatter<'_>) -> fmt::Result {
            f.debug_list().entries(self.clone()).finish()
        }
    }

    impl<K: fmt::Debug, V> fmt::Debug for Keys<'_, K, V> {
        fn fmt(&self, f: &mut fmt::Formatter<'_>) -> fmt::Result {
            f.debug_list().entries(self.clone()).finish()
        }
    }
}
