//! The original's `IntMap`, unchanged, behind the same methods: each access and each store is judged first.
use super::plain_intmap::IntMap as Plain;
use crate::judge;

#[derive(Debug, Clone, PartialEq, Eq, Hash)]
pub(crate) struct IntMap<V>(Plain<V>);

/// Cells and depth of what a map holds; src/peek.rs has them.
pub(crate) trait Size {
    fn cells(&self) -> usize;
    fn depth(&self) -> usize;
}

impl<V> Default for IntMap<V> {
    fn default() -> Self {
        Self::new()
    }
}

impl<V> IntMap<V> {
    pub(crate) fn new() -> Self {
        IntMap(Plain::new())
    }
    pub(crate) fn get(&self, idx: &i64) -> Option<&V> {
        judge::access(*idx);
        self.0.get(idx)
    }
    pub(crate) fn get_mut(&mut self, idx: &i64) -> Option<&mut V> {
        judge::access(*idx);
        self.0.get_mut(idx)
    }
    pub(crate) fn values(&self) -> impl Iterator<Item = &V> {
        self.0.values()
    }
    pub(crate) fn values_mut(&mut self) -> impl Iterator<Item = &mut V> {
        self.0.values_mut()
    }
    pub(crate) fn iter(&self) -> impl Iterator<Item = Option<&V>> {
        self.0.iter()
    }
    /// Slots, absent entries too.
    pub(crate) fn slots(&self) -> usize {
        self.0.iter().size_hint().0
    }
    /// A look that is no access of the walk.
    pub(crate) fn peek(&self, idx: i64) -> Option<&V> {
        self.0.get(&idx)
    }
}

impl<V: Size> IntMap<V> {
    pub(crate) fn insert(&mut self, idx: i64, value: V) -> Option<V> {
        judge::access(idx);
        let old = self.0.get(&idx).map_or(0, Size::cells);
        judge::store(value.depth(), value.cells() as i64 - old as i64);
        self.0.insert(idx, value)
    }
    pub(crate) fn remove(&mut self, idx: &i64) -> Option<V> {
        judge::access(*idx);
        let old = self.0.remove(idx);
        judge::store(0, -(old.as_ref().map_or(0, Size::cells) as i64));
        old
    }
}

impl<V: Clone> IntMap<V> {
    pub(crate) fn from_elem(elem: V, len: usize) -> Self {
        IntMap(Plain::from_elem(elem, len))
    }
    pub(crate) fn from_dense_record(record: &[V]) -> Self {
        IntMap(Plain::from_dense_record(record))
    }
}

impl<V: Eq> IntMap<V> {
    pub(crate) fn diff<'a, 'b, 'c>(&'a self, prev: &'b Self) -> impl Iterator<Item = (usize, Option<&'c V>)>
    where
        'a: 'c,
        'b: 'c,
    {
        self.0.diff(&prev.0)
    }
}
