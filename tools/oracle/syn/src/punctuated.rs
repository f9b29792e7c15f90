//! A list of items with tokens between them, of which only the items are held.

use std::marker::PhantomData;

pub struct Punctuated<T, P> {
    items: Vec<T>,
    between: PhantomData<P>,
}

impl<T, P> Punctuated<T, P> {
    pub fn iter(&self) -> std::slice::Iter<'_, T> {
        self.items.iter()
    }

    pub fn is_empty(&self) -> bool {
        self.items.is_empty()
    }

    pub fn len(&self) -> usize {
        self.items.len()
    }

    pub fn first(&self) -> Option<&T> {
        self.items.first()
    }

    pub fn last(&self) -> Option<&T> {
        self.items.last()
    }
}

impl<T, P> Default for Punctuated<T, P> {
    fn default() -> Self {
        Vec::new().into()
    }
}

impl<T, P> From<Vec<T>> for Punctuated<T, P> {
    fn from(items: Vec<T>) -> Self {
        Punctuated { items, between: PhantomData }
    }
}

impl<'a, T, P> IntoIterator for &'a Punctuated<T, P> {
    type Item = &'a T;
    type IntoIter = std::slice::Iter<'a, T>;

    fn into_iter(self) -> Self::IntoIter {
        self.iter()
    }
}
