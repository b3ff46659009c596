//! A word by its place: checked, or unchecked where the state's invariant says that the place is there.

use std::ops::Range;

#[cfg(not(feature = "unchecked"))]
mod by_place {
    use super::Range;

    #[inline(always)]
    pub fn get<T: Copy>(words: &[T], place: usize) -> T {
        words[place]
    }

    #[inline(always)]
    pub fn put<T>(words: &mut [T], place: usize, word: T) {
        words[place] = word;
    }

    #[inline(always)]
    pub fn part<T>(words: &mut [T], places: Range<usize>) -> &mut [T] {
        &mut words[places]
    }

    #[inline(always)]
    pub fn first<T>(words: &[T], n: usize) -> &[T] {
        &words[..n]
    }
}

// SAFETY, of all four: every area ends within its store, every used word has its bit in the map, a live
// object ends within its area's used words, no stack is longer than its row, and every block of scratch has its used
// bit. Set-up gives this and every call keeps it.
#[cfg(feature = "unchecked")]
mod by_place {
    use super::Range;

    #[inline(always)]
    pub fn get<T: Copy>(words: &[T], place: usize) -> T {
        unsafe { *words.get_unchecked(place) }
    }

    #[inline(always)]
    pub fn put<T>(words: &mut [T], place: usize, word: T) {
        unsafe { *words.get_unchecked_mut(place) = word }
    }

    #[inline(always)]
    pub fn part<T>(words: &mut [T], places: Range<usize>) -> &mut [T] {
        unsafe { words.get_unchecked_mut(places) }
    }

    #[inline(always)]
    pub fn first<T>(words: &[T], n: usize) -> &[T] {
        unsafe { words.get_unchecked(..n) }
    }
}

pub use by_place::{first, get, part, put};
