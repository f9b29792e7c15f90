//! Stand-in for iter.rs: items that know whether they are the first or the last.

use std::iter::Peekable;
use std::ops::Deref;

pub struct Delimited<I: Iterator> {
    is_first: bool,
    items: Peekable<I>,
}

pub struct Item<T> {
    value: T,
    pub is_first: bool,
    pub is_last: bool,
}

pub trait IterDelimited: Iterator + Sized {
    fn delimited(self) -> Delimited<Self> {
        Delimited { is_first: true, items: self.peekable() }
    }
}

impl<I: Iterator> IterDelimited for I {}

impl<I: Iterator> Iterator for Delimited<I> {
    type Item = Item<I::Item>;

    fn next(&mut self) -> Option<Self::Item> {
        let value = self.items.next()?;
        let is_first = std::mem::replace(&mut self.is_first, false);
        Some(Item { value, is_first, is_last: self.items.peek().is_none() })
    }
}

impl<T> Deref for Item<T> {
    type Target = T;

    fn deref(&self) -> &T {
        &self.value
    }
}
