//! What stands in for the types of the kit in crates that are built as plain Rust (bench/plain.py). Nothing here is proved.
use std::ops::{Deref, DerefMut};

#[derive(Clone, Copy, Debug)]
pub struct Global;
#[derive(Clone, Copy, Debug)]
pub struct AllocError;
#[derive(Clone, Copy, Debug)]
pub struct PushError;

impl From<PushError> for AllocError {
    fn from(_: PushError) -> Self {
        AllocError
    }
}

#[derive(Debug, PartialEq)]
pub struct Vec<T>(pub std::vec::Vec<T>);

impl<T> Vec<T> {
    pub fn new(_: Global) -> Self {
        Vec(std::vec::Vec::new())
    }
    pub fn with_capacity(_: Global, count: usize) -> Result<Self, AllocError> {
        Ok(Vec(std::vec::Vec::with_capacity(count)))
    }
    pub fn push(&mut self, item: T) -> Result<(), PushError> {
        self.0.push(item);
        Ok(())
    }
    pub fn pop(&mut self) -> Option<T> {
        self.0.pop()
    }
    pub fn truncate(&mut self, count: usize) {
        self.0.truncate(count)
    }
    pub fn swap_remove(&mut self, at: usize) -> T {
        self.0.swap_remove(at)
    }
    pub fn clear(&mut self) {
        self.0.clear()
    }
    pub fn as_slice(&self) -> &[T] {
        &self.0
    }
}

impl<T: Copy> Vec<T> {
    pub fn extend_from_slice(&mut self, items: &[T]) -> Result<(), AllocError> {
        self.0.extend_from_slice(items);
        Ok(())
    }
}

impl<T> Deref for Vec<T> {
    type Target = [T];
    fn deref(&self) -> &[T] {
        &self.0
    }
}

impl<T> DerefMut for Vec<T> {
    fn deref_mut(&mut self) -> &mut [T] {
        &mut self.0
    }
}

impl<'a, T> IntoIterator for &'a Vec<T> {
    type Item = &'a T;
    type IntoIter = std::slice::Iter<'a, T>;
    fn into_iter(self) -> Self::IntoIter {
        self.0.iter()
    }
}

pub fn vec_of<T: Clone>(item: T, count: usize) -> Result<Vec<T>, AllocError> {
    Ok(Vec(vec![item; count]))
}

pub struct Boxed<T>(pub Box<T>);

impl<T> Boxed<T> {
    pub fn new(_: Global, item: T) -> Result<Self, AllocError> {
        Ok(Boxed(Box::new(item)))
    }
    pub fn get(&self) -> &T {
        &self.0
    }
}

pub struct Items<T>(pub std::vec::Vec<T>);

impl<T> Items<T> {
    pub fn new(_: Global) -> Self {
        Items(std::vec::Vec::new())
    }
    pub fn as_slice(&self) -> &[T] {
        &self.0
    }
    pub fn len(&self) -> usize {
        self.0.len()
    }
    pub fn push(&mut self, item: T) -> Result<(), AllocError> {
        self.0.push(item);
        Ok(())
    }
}

impl<T: Copy> Items<T> {
    pub fn from_slice(_: Global, items: &[T]) -> Result<Self, AllocError> {
        Ok(Items(items.to_vec()))
    }
}

impl<T> From<Vec<T>> for Items<T> {
    fn from(items: Vec<T>) -> Self {
        Items(items.0)
    }
}

#[derive(Clone, Copy)]
pub struct ArrayVec<T: Copy + Default, const N: usize> {
    items: [T; N],
    count: usize,
}

impl<T: Copy + Default, const N: usize> ArrayVec<T, N> {
    pub fn new() -> Self {
        ArrayVec {
            items: [T::default(); N],
            count: 0,
        }
    }
    pub fn push(&mut self, item: T) {
        self.items[self.count] = item;
        self.count += 1;
    }
    pub fn try_push(&mut self, item: T) -> Result<(), AllocError> {
        if self.count == N {
            return Err(AllocError);
        }
        self.push(item);
        Ok(())
    }
    pub fn as_slice(&self) -> &[T] {
        &self.items[..self.count]
    }
}

pub struct BTreeMap<K, V>(pub std::collections::BTreeMap<K, V>);

impl<K: Ord + Copy, V: Copy> BTreeMap<K, V> {
    pub fn new(_: Global) -> Self {
        BTreeMap(std::collections::BTreeMap::new())
    }
    pub fn get(&self, key: &K) -> Option<&V> {
        self.0.get(key)
    }
    pub fn insert(&mut self, key: K, value: V) -> Result<Option<V>, AllocError> {
        Ok(self.0.insert(key, value))
    }
}

pub mod prelude {
    pub use super::{Vec, vec_of};
}
