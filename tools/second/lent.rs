//! A list that is lent, whole or its first part, with margins that show a write outside it.

use crate::library::{patterned, MARGIN};
use std::fmt::Display;

#[derive(Clone, PartialEq)]
pub struct Lent<T> {
    whole: Vec<T>,
    begin: usize,
    length: usize,
}

impl<T: Copy + From<u8> + PartialEq + Display> Lent<T> {
    /// A list filled with the margins' pattern.
    pub fn patterned(capacity: usize) -> Lent<T> {
        let whole = patterned(capacity).into_iter().map(T::from).collect();
        Lent { whole, begin: MARGIN, length: capacity }
    }

    pub fn new(content: &[T]) -> Lent<T> {
        let mut lent = Lent::patterned(content.len());
        lent.content_mut().copy_from_slice(content);
        lent
    }

    /// A list that begins `place` elements further on in its memory, with one number all around it.
    pub fn amid(around: T, place: usize, content: &[T]) -> Lent<T> {
        let whole = vec![around; MARGIN + place + content.len() + MARGIN];
        let mut lent = Lent { whole, begin: MARGIN + place, length: content.len() };
        lent.content_mut().copy_from_slice(content);
        lent
    }

    /// How much of the list is lent.
    pub fn length(&self) -> usize {
        self.length
    }

    /// Lends the first `length` elements from now on.
    pub fn lend(&mut self, length: usize) {
        assert!(length <= self.all().len(), "no more can be lent than there is");
        self.length = length;
    }

    pub fn content(&self) -> &[T] {
        &self.whole[self.begin..self.begin + self.length]
    }

    pub fn content_mut(&mut self) -> &mut [T] {
        &mut self.whole[self.begin..self.begin + self.length]
    }

    /// Everything between the margins, lent or not.
    pub fn all(&self) -> &[T] {
        &self.whole[self.begin..self.whole.len() - MARGIN]
    }

    pub fn all_mut(&mut self) -> &mut [T] {
        let end = self.whole.len() - MARGIN;
        &mut self.whole[self.begin..end]
    }

    pub fn pointer(&mut self) -> *mut T {
        self.whole[self.begin..].as_mut_ptr()
    }

    /// Where two lists differ first, counted from the first element that is lent.
    pub fn difference(&self, other: &Lent<T>) -> Option<String> {
        if self.whole == other.whole {
            return None;
        }
        let at = self.whole.iter().zip(&other.whole).position(|(ours, theirs)| ours != theirs)?;
        Some(format!("{}: {} and {}", at as i64 - self.begin as i64, self.whole[at], other.whole[at]))
    }
}
