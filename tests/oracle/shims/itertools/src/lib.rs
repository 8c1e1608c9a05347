//! Shim of itertools: unique() only (first arrivals keep their order).
use std::{collections::HashSet, hash::Hash};
pub struct Unique<I: Iterator> {
    it: I,
    seen: HashSet<I::Item>,
}
impl<I: Iterator> Iterator for Unique<I>
where
    I::Item: Clone + Eq + Hash,
{
    type Item = I::Item;
    fn next(&mut self) -> Option<I::Item> {
        loop {
            let x = self.it.next()?;
            if self.seen.insert(x.clone()) {
                return Some(x);
            }
        }
    }
}
pub trait Itertools: Iterator {
    fn unique(self) -> Unique<Self>
    where
        Self: Sized,
        Self::Item: Clone + Eq + Hash,
    {
        Unique { it: self, seen: HashSet::new() }
    }
}
impl<I: Iterator> Itertools for I {}
