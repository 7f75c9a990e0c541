//! The plain row: a second engine in words of its own, to compare a list with: docs/REFERENCE.md, *The plain row*.
//!
//! A row is the standing keys in ascending order, each with its value and mark, searched from the front. From a fresh pair, a list and a row
//! set up with the same D, K and C, every insert, find, finish, take and sweep is answered the same by both: refusal, key, value, passed, the
//! count of 7 and freed. Where the list answers cells looked at or links moved, the row answers 0.
//!
//! [`Row`] holds the lent words and has the operations as methods. Both engines side by side:
//!
//! ```
//! use mdlist_host::{row_words, words_needed, List, Refusal, Row};
//!
//! let (mut of_list, mut of_row) = ([0u32; words_needed(2, 8)], [0u32; row_words(8)]);
//! let (mut list, mut row) = (List::set_up(2, 15, 8, &mut of_list)?, Row::set_up(2, 15, 8, &mut of_row)?);
//! for (key, value) in [(6, 60), (5, 50), (9, 90)] {
//!     list.insert(key, value)?;
//!     row.insert(key, value)?;
//! }
//! assert_eq!(list.find(6)?.value, row.find(6)?.value);
//! assert_eq!(list.take(), row.take());
//! assert_eq!(list.take(), row.take());
//! assert_eq!(list.sweep(), row.sweep());
//! # Ok::<(), Refusal>(())
//! ```

use super::{checked, Answered, Found, Refusal, Taken};

mod sys {
    use super::super::sys::Answer;

    extern "C" {
        pub fn row_set_up(d: u32, k: u32, c: u32, row: *mut u32, len: usize) -> Answer;
        pub fn row_insert(row: *mut u32, len: usize, key: u32, value: u32) -> Answer;
        pub fn row_find(row: *const u32, len: usize, key: u32) -> Answer;
        pub fn row_finish(row: *const u32, len: usize, key: u32) -> Answer;
        pub fn row_take(row: *mut u32, len: usize) -> Answer;
        pub fn row_sweep(row: *mut u32, len: usize) -> Answer;
    }
}

/// How many words a row has beside a list of C cells (3 to [`MOST_CELLS`](crate::MOST_CELLS)): 5 + 3(C-1), whatever D is.
///
/// ```
/// # use mdlist_host::{row_words, MOST_CELLS};
/// assert_eq!(row_words(8), 26);
/// assert_eq!(row_words(512), 1_538);
/// assert_eq!(row_words(MOST_CELLS), 786_434);
/// ```
pub const fn row_words(c: u32) -> usize {
    5 + 3 * (c as usize).saturating_sub(1)
}

/// Makes the words a fresh row for the D, K and C of a list. What they held before does not matter.
///
/// ```
/// use mdlist_host::{row, row_words, Refusal};
/// let mut words = [7u32; row_words(8)];
/// assert_eq!(row::set_up(2, 15, 8, &mut words[1..]), Err(Refusal::WrongLength));
/// assert_eq!(row::set_up(17, 15, 8, &mut words[1..]), Err(Refusal::OutOfRange));
/// row::set_up(2, 15, 8, &mut words)?;
/// assert_eq!(words[..5], [2, 15, 8, 0, 0]);
/// assert_eq!(words[5..], [0; 21]);
/// # Ok::<(), Refusal>(())
/// ```
pub fn set_up(d: u32, k: u32, c: u32, row: &mut [u32]) -> Result<(), Refusal> {
    // SAFETY: a slice is its pointer and its length, and the callee writes within them alone.
    checked(unsafe { sys::row_set_up(d, k, c, row.as_mut_ptr(), row.len()) }).map(|_| ())
}

/// Inserts a key with its value; answers 0, for a row counts no cells looked at.
///
/// ```
/// # use mdlist_host::{row, row_words, Refusal};
/// let mut words = [0u32; row_words(8)];
/// row::set_up(2, 15, 8, &mut words)?;
/// assert_eq!(row::insert(&mut words, 6, 60), Ok(0));
/// assert_eq!(words[..8], [2, 15, 8, 1, 0, 6, 60, 1]);
/// assert_eq!(row::insert(&mut words, 6, 61), Err(Refusal::KeyLive { looked: 0 }));
/// assert_eq!(row::insert(&mut words, 16, 60), Err(Refusal::BadKey));
/// # Ok::<(), Refusal>(())
/// ```
pub fn insert(row: &mut [u32], key: u32, value: u32) -> Result<u32, Refusal> {
    // SAFETY: as in `set_up`.
    Answered(unsafe { sys::row_insert(row.as_mut_ptr(), row.len(), key, value) }).inserted()
}

/// Finds a live key; writes nothing. Its `looked` is 0.
///
/// ```
/// # use mdlist_host::{row, row_words, Found, Refusal};
/// # let mut words = [0u32; row_words(8)];
/// # row::set_up(2, 15, 8, &mut words)?;
/// row::insert(&mut words, 6, 60)?;
/// assert_eq!(row::find(&words, 6), Ok(Found { value: 60, looked: 0 }));
/// assert_eq!(row::find(&words, 7), Err(Refusal::NotThere { looked: 0 }));
/// assert_eq!(row::find(&words[1..], 6), Err(Refusal::NotAList));
/// # Ok::<(), Refusal>(())
/// ```
pub fn find(row: &[u32], key: u32) -> Result<Found, Refusal> {
    // SAFETY: the callee reads within the slice alone and writes nothing.
    Answered(unsafe { sys::row_find(row.as_ptr(), row.len(), key) }).found()
}

/// Tells whether a key stands, live or dead, and is refused by 8 if it does not. A row owes nothing, so it answers 0 and writes nothing.
///
/// ```
/// # use mdlist_host::{row, row_words, Refusal};
/// # let mut words = [0u32; row_words(8)];
/// # row::set_up(2, 15, 8, &mut words)?;
/// row::insert(&mut words, 6, 60)?;
/// row::take(&mut words)?;
/// assert_eq!(row::finish(&words, 6), Ok(0));
/// assert_eq!(row::finish(&words, 7), Err(Refusal::NotThere { looked: 0 }));
/// # Ok::<(), Refusal>(())
/// ```
pub fn finish(row: &[u32], key: u32) -> Result<u32, Refusal> {
    // SAFETY: as in `find`.
    Answered(unsafe { sys::row_finish(row.as_ptr(), row.len(), key) }).finished()
}

/// Takes the least live key.
///
/// ```
/// # use mdlist_host::{row, row_words, Refusal, Taken};
/// # let mut words = [0u32; row_words(8)];
/// # row::set_up(2, 15, 8, &mut words)?;
/// row::insert(&mut words, 6, 60)?;
/// assert_eq!(row::take(&mut words), Ok(Taken { key: 6, value: 60, passed: 1 }));
/// assert_eq!(words[..8], [2, 15, 8, 1, 6, 6, 0, 2]);
/// assert_eq!(row::take(&mut words), Err(Refusal::NothingLive { above: 0 }));
/// # Ok::<(), Refusal>(())
/// ```
pub fn take(row: &mut [u32]) -> Result<Taken, Refusal> {
    // SAFETY: as in `set_up`.
    Answered(unsafe { sys::row_take(row.as_mut_ptr(), row.len()) }).taken()
}

/// Frees the dead keys below every live one but for the last of them, which becomes the position; answers how many were freed.
///
/// ```
/// # use mdlist_host::{row, row_words, Refusal};
/// # let mut words = [0u32; row_words(8)];
/// # row::set_up(2, 15, 8, &mut words)?;
/// row::insert(&mut words, 6, 60)?;
/// row::insert(&mut words, 5, 50)?;
/// row::take(&mut words)?;
/// row::take(&mut words)?;
/// assert_eq!(row::sweep(&mut words), Ok(1));
/// assert_eq!(words[..11], [2, 15, 8, 1, 6, 6, 0, 2, 0, 0, 0]);
/// # Ok::<(), Refusal>(())
/// ```
pub fn sweep(row: &mut [u32]) -> Result<u32, Refusal> {
    // SAFETY: as in `set_up`.
    Answered(unsafe { sys::row_sweep(row.as_mut_ptr(), row.len()) }).swept()
}

/// A row in lent words, with the operations as methods.
///
/// Nothing is kept but the borrow: another `Row` on the same words later goes on where this one ended.
///
/// ```
/// # use mdlist_host::*;
/// let mut words = [0u32; row_words(8)];
/// Row::set_up(2, 15, 8, &mut words)?.insert(6, 60)?;
/// assert_eq!(Row::new(&mut words).take()?.key, 6);
/// # Ok::<(), Refusal>(())
/// ```
#[derive(Debug)]
pub struct Row<'a> {
    words: &'a mut [u32],
}

impl<'a> Row<'a> {
    /// Makes the words a fresh row, as [`set_up`] does, and holds them.
    ///
    /// ```
    /// # use mdlist_host::*;
    /// let mut words = [0u32; row_words(8)];
    /// assert!(Row::set_up(2, 15, 8, &mut words).is_ok());
    /// assert!(matches!(Row::set_up(2, 15, 9, &mut words), Err(Refusal::WrongLength)));
    /// assert!(matches!(Row::set_up(2, 0, 8, &mut words), Err(Refusal::OutOfRange)));
    /// ```
    pub fn set_up(d: u32, k: u32, c: u32, words: &'a mut [u32]) -> Result<Row<'a>, Refusal> {
        set_up(d, k, c, words)?;
        Ok(Row { words })
    }

    /// Holds words that are a row already. It does not look at them: each call checks them, and refuses words that are not a row by 3.
    ///
    /// ```
    /// # use mdlist_host::*;
    /// let mut words = [0u32; row_words(8)];
    /// assert_eq!(Row::new(&mut words).take(), Err(Refusal::NotAList));
    /// ```
    pub fn new(words: &'a mut [u32]) -> Row<'a> {
        Row { words }
    }

    /// The words, to copy or to store.
    ///
    /// ```
    /// # use mdlist_host::*;
    /// let mut words = [0u32; row_words(8)];
    /// let row = Row::set_up(2, 15, 8, &mut words)?;
    /// assert_eq!(row.words()[..5], [2, 15, 8, 0, 0]);
    /// # Ok::<(), Refusal>(())
    /// ```
    pub fn words(&self) -> &[u32] {
        self.words
    }

    /// Inserts a key with its value, as [`insert`] does.
    ///
    /// ```
    /// # use mdlist_host::*;
    /// # let mut words = [0u32; row_words(8)];
    /// # let mut row = Row::set_up(2, 15, 8, &mut words)?;
    /// assert_eq!(row.insert(6, 60), Ok(0));
    /// # Ok::<(), Refusal>(())
    /// ```
    pub fn insert(&mut self, key: u32, value: u32) -> Result<u32, Refusal> {
        insert(self.words, key, value)
    }

    /// Finds a live key, as [`find`] does.
    ///
    /// ```
    /// # use mdlist_host::*;
    /// # let mut words = [0u32; row_words(8)];
    /// # let mut row = Row::set_up(2, 15, 8, &mut words)?;
    /// row.insert(6, 60)?;
    /// assert_eq!(row.find(6), Ok(Found { value: 60, looked: 0 }));
    /// # Ok::<(), Refusal>(())
    /// ```
    pub fn find(&self, key: u32) -> Result<Found, Refusal> {
        find(self.words, key)
    }

    /// Tells whether a key stands, as [`finish`] does.
    ///
    /// ```
    /// # use mdlist_host::*;
    /// # let mut words = [0u32; row_words(8)];
    /// # let mut row = Row::set_up(2, 15, 8, &mut words)?;
    /// row.insert(6, 60)?;
    /// assert_eq!(row.finish(6), Ok(0));
    /// assert_eq!(row.finish(5), Err(Refusal::NotThere { looked: 0 }));
    /// # Ok::<(), Refusal>(())
    /// ```
    pub fn finish(&self, key: u32) -> Result<u32, Refusal> {
        finish(self.words, key)
    }

    /// Takes the least live key, as [`take`] does.
    ///
    /// ```
    /// # use mdlist_host::*;
    /// # let mut words = [0u32; row_words(8)];
    /// # let mut row = Row::set_up(2, 15, 8, &mut words)?;
    /// row.insert(6, 60)?;
    /// assert_eq!(row.take(), Ok(Taken { key: 6, value: 60, passed: 1 }));
    /// # Ok::<(), Refusal>(())
    /// ```
    pub fn take(&mut self) -> Result<Taken, Refusal> {
        take(self.words)
    }

    /// Frees dead keys, as [`sweep`] does.
    ///
    /// ```
    /// # use mdlist_host::*;
    /// # let mut words = [0u32; row_words(8)];
    /// # let mut row = Row::set_up(2, 15, 8, &mut words)?;
    /// row.insert(6, 60)?;
    /// row.insert(5, 50)?;
    /// row.take()?;
    /// row.take()?;
    /// assert_eq!(row.sweep(), Ok(1));
    /// # Ok::<(), Refusal>(())
    /// ```
    pub fn sweep(&mut self) -> Result<u32, Refusal> {
        sweep(self.words)
    }
}
