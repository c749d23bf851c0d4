//! A map that keeps the order of insertion, with the part of the standard map's interface that the original uses.
//! Inserting a key again keeps its first place.

use std::borrow::Borrow;
use std::cell::Cell;
use std::ops::Index;

thread_local! {
    static MADE: Cell<u64> = const { Cell::new(0) };
}

/// How many maps this thread has made from an array since the last call: the original makes one for each model it sets
/// up, so this counts the instances.
pub fn take_made() -> u64 {
    MADE.with(|made| made.replace(0))
}

/// The map. Its name is the one that the original imports.
#[derive(Clone, Debug)]
pub struct HashMap<K, V> {
    entries: Vec<(K, V)>,
}

impl<K: Eq, V> HashMap<K, V> {
    #[allow(clippy::new_without_default)]
    pub fn new() -> Self {
        HashMap {
            entries: Vec::new(),
        }
    }

    pub fn get<Q: Eq + ?Sized>(&self, key: &Q) -> Option<&V>
    where
        K: Borrow<Q>,
    {
        self.iter()
            .find(|(k, _)| (*k).borrow() == key)
            .map(|(_, v)| v)
    }

    pub fn contains_key<Q: Eq + ?Sized>(&self, key: &Q) -> bool
    where
        K: Borrow<Q>,
    {
        self.get(key).is_some()
    }

    pub fn insert(&mut self, key: K, value: V) -> Option<V> {
        match self.entries.iter_mut().find(|(k, _)| *k == key) {
            Some((_, old)) => Some(std::mem::replace(old, value)),
            None => {
                self.entries.push((key, value));
                None
            }
        }
    }

    pub fn iter(&self) -> impl Iterator<Item = (&K, &V)> {
        self.entries.iter().map(|(k, v)| (k, v))
    }

    pub fn values(&self) -> impl Iterator<Item = &V> {
        self.entries.iter().map(|(_, v)| v)
    }
}

impl<K: Eq, V, const N: usize> From<[(K, V); N]> for HashMap<K, V> {
    fn from(entries: [(K, V); N]) -> Self {
        MADE.with(|made| made.set(made.get() + 1));
        let mut map = HashMap::new();
        for (key, value) in entries {
            map.insert(key, value);
        }
        map
    }
}

impl<K: Eq + Borrow<Q>, Q: Eq + ?Sized, V> Index<&Q> for HashMap<K, V> {
    type Output = V;

    fn index(&self, key: &Q) -> &V {
        self.get(key).expect("no entry found for key")
    }
}

impl<'a, K, V> IntoIterator for &'a HashMap<K, V> {
    type Item = (&'a K, &'a V);
    type IntoIter = std::iter::Map<std::slice::Iter<'a, (K, V)>, fn(&'a (K, V)) -> (&'a K, &'a V)>;

    fn into_iter(self) -> Self::IntoIter {
        self.entries.iter().map(|(k, v)| (k, v))
    }
}

#[test]
fn a_key_inserted_again_keeps_its_first_place() {
    let mut map = HashMap::from([("t", 0)]);
    assert_eq!(map.insert("x", 1), None);
    assert_eq!(map.insert("y", 2), None);
    assert_eq!(map.insert("x", 3), Some(1));
    let entries: Vec<_> = map.iter().map(|(k, v)| (*k, *v)).collect();
    assert_eq!(entries, [("t", 0), ("x", 3), ("y", 2)]);
    assert_eq!((map["x"], map.get("z")), (3, None));
}
