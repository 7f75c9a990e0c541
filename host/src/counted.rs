//! The operations with a class record beside the list: how many keys of each class wait, and the least of them, for a screen that must not
//! read the list: docs/REFERENCE.md, *The class record*.
//!
//! The record is 32 words that the host lends beside the list's. Each operation does to the list what the function of its name in this
//! package does, and leaves the record as a full reading of the list gives it. A record that differs from the list is refused, and so is
//! one of another length. A question about one class takes the record alone.
//!
//! [`Counted`] holds list and record and has the operations as methods:
//!
//! ```
//! use mdlist_host::{counted, words_needed, Counted, InClass, Refusal, CLASS_WORDS};
//!
//! let (mut words, mut classes) = ([0u32; words_needed(8, 512)], [0u32; CLASS_WORDS]);
//! let mut list = Counted::set_up(8, u32::MAX, 512, &mut words, &mut classes)?;
//! // class 1, units 1,117 and 117: docs/REFERENCE.md, *Entries*
//! list.insert(273_010_688, 42)?;
//! list.insert(268_914_688, 41)?;
//! assert_eq!(list.class(1)?, InClass { count: 2, least: 268_914_688 });
//! list.take()?;
//! // a screen has the record alone
//! let screen: [u32; CLASS_WORDS] = classes;
//! assert_eq!(counted::class(&screen, 1)?, InClass { count: 1, least: 273_010_688 });
//! assert_eq!(counted::class(&screen, 0)?, InClass { count: 0, least: 0 });
//! # Ok::<(), Refusal>(())
//! ```

use super::{checked, Answered, Call, Found, Logger, Recorded, Refusal, Taken};
use core::mem::{size_of, size_of_val};

mod sys {
    use super::super::sys::Answer;

    extern "C" {
        pub fn counted_set_up(d: u32, k: u32, c: u32, list: *mut u32, len: usize, classes: *mut u32, classes_len: usize) -> Answer;
        pub fn counted_insert(list: *mut u32, len: usize, classes: *mut u32, classes_len: usize, key: u32, value: u32) -> Answer;
        pub fn counted_find(list: *const u32, len: usize, classes: *const u32, classes_len: usize, key: u32) -> Answer;
        pub fn counted_finish(list: *mut u32, len: usize, classes: *const u32, classes_len: usize, key: u32) -> Answer;
        pub fn counted_take(list: *mut u32, len: usize, classes: *mut u32, classes_len: usize) -> Answer;
        pub fn counted_sweep(list: *mut u32, len: usize, classes: *const u32, classes_len: usize) -> Answer;
        pub fn counted_record(
            list: *mut u32,
            len: usize,
            classes: *mut u32,
            classes_len: usize,
            record: *const u8,
            record_len: usize,
            last: *mut u64,
        ) -> Answer;
        pub fn counted_write(
            list: *const u32,
            len: usize,
            classes: *const u32,
            classes_len: usize,
            file: *mut u8,
            file_len: usize,
        ) -> Answer;
        pub fn counted_read(file: *const u8, file_len: usize, list: *mut u32, len: usize, classes: *mut u32, classes_len: usize) -> Answer;
        pub fn counted_batch(
            list: *mut u32,
            len: usize,
            classes: *mut u32,
            classes_len: usize,
            calls: *const u32,
            calls_len: usize,
            answers: *mut u32,
            answers_len: usize,
        ) -> Answer;
        pub fn counted_class(classes: *const u32, classes_len: usize, class: u32) -> Answer;
    }
}

/// How many words a class record has: the count and the least key of class 0, those of class 1, and so on to class 15.
///
/// ```
/// # use mdlist_host::*;
/// assert_eq!(CLASS_WORDS, 2 * 16);
/// ```
pub const CLASS_WORDS: usize = 32;

/// What a class record says of one class.
#[derive(Clone, Copy, Debug, PartialEq, Eq)]
pub struct InClass {
    /// How many keys of the class are live.
    pub count: u32,
    /// The least of them, 0 if there is none.
    pub least: u32,
}

/// Makes the words a fresh list, as [`set_up`](fn@crate::set_up) does, and the class record that of a list in which nothing is live. What
/// both held before does not matter. Where either has not the exact length, it is refused by 2.
///
/// ```
/// use mdlist_host::{counted, words_needed, Refusal, CLASS_WORDS};
/// let (mut list, mut classes) = ([0u32; words_needed(2, 8)], [7u32; CLASS_WORDS]);
/// assert_eq!(counted::set_up(2, 15, 8, &mut list, &mut classes[1..]), Err(Refusal::WrongLength));
/// assert_eq!(counted::set_up(2, 0, 8, &mut list, &mut classes[1..]), Err(Refusal::OutOfRange));
/// counted::set_up(2, 15, 8, &mut list, &mut classes)?;
/// assert_eq!(classes, [0; CLASS_WORDS]);
/// # Ok::<(), Refusal>(())
/// ```
pub fn set_up(d: u32, k: u32, c: u32, list: &mut [u32], classes: &mut [u32]) -> Result<(), Refusal> {
    // SAFETY: a slice is its pointer and its length, and the callee writes within them alone.
    checked(unsafe { sys::counted_set_up(d, k, c, list.as_mut_ptr(), list.len(), classes.as_mut_ptr(), classes.len()) }).map(|_| ())
}

/// Inserts a key with its value, as [`insert`](fn@crate::insert) does.
///
/// ```
/// # use mdlist_host::{counted, words_needed, Refusal, CLASS_WORDS};
/// # let (mut list, mut classes) = ([0u32; words_needed(2, 8)], [0u32; CLASS_WORDS]);
/// counted::set_up(2, 15, 8, &mut list, &mut classes)?;
/// assert_eq!(counted::insert(&mut list, &mut classes, 6, 60), Ok(0));
/// assert_eq!(classes[..2], [1, 6]);
/// classes[0] = 2;
/// assert_eq!(counted::insert(&mut list, &mut classes, 5, 50), Err(Refusal::BadClasses));
/// # Ok::<(), Refusal>(())
/// ```
pub fn insert(list: &mut [u32], classes: &mut [u32], key: u32, value: u32) -> Result<u32, Refusal> {
    // SAFETY: as in `set_up`.
    Answered(unsafe { sys::counted_insert(list.as_mut_ptr(), list.len(), classes.as_mut_ptr(), classes.len(), key, value) }).inserted()
}

/// Finds a live key, as [`find`](fn@crate::find) does; writes nothing.
///
/// ```
/// # use mdlist_host::{counted, words_needed, Found, Refusal, CLASS_WORDS};
/// # let (mut list, mut classes) = ([0u32; words_needed(2, 8)], [0u32; CLASS_WORDS]);
/// # counted::set_up(2, 15, 8, &mut list, &mut classes)?;
/// counted::insert(&mut list, &mut classes, 6, 60)?;
/// assert_eq!(counted::find(&list, &classes, 6), Ok(Found { value: 60, looked: 1 }));
/// assert_eq!(counted::find(&list, &classes[1..], 6), Err(Refusal::BadClasses));
/// # Ok::<(), Refusal>(())
/// ```
pub fn find(list: &[u32], classes: &[u32], key: u32) -> Result<Found, Refusal> {
    // SAFETY: the callee reads within the slices alone and writes nothing.
    Answered(unsafe { sys::counted_find(list.as_ptr(), list.len(), classes.as_ptr(), classes.len(), key) }).found()
}

/// Finishes what a key's cell owes, as [`finish`](fn@crate::finish) does. What is live stays, and so does the record.
///
/// ```
/// # use mdlist_host::{counted, words_needed, Refusal, CLASS_WORDS};
/// # let (mut list, mut classes) = ([0u32; words_needed(2, 8)], [0u32; CLASS_WORDS]);
/// # counted::set_up(2, 15, 8, &mut list, &mut classes)?;
/// counted::insert(&mut list, &mut classes, 6, 60)?;
/// counted::insert(&mut list, &mut classes, 5, 50)?;
/// assert_eq!(counted::finish(&mut list, &classes, 5), Ok(1));
/// # Ok::<(), Refusal>(())
/// ```
pub fn finish(list: &mut [u32], classes: &[u32], key: u32) -> Result<u32, Refusal> {
    // SAFETY: as in `set_up`; the record is read alone.
    Answered(unsafe { sys::counted_finish(list.as_mut_ptr(), list.len(), classes.as_ptr(), classes.len(), key) }).finished()
}

/// Takes the least live key, as [`take`](fn@crate::take) does.
///
/// ```
/// # use mdlist_host::{counted, words_needed, Refusal, CLASS_WORDS};
/// # let (mut list, mut classes) = ([0u32; words_needed(2, 8)], [0u32; CLASS_WORDS]);
/// # counted::set_up(2, 15, 8, &mut list, &mut classes)?;
/// counted::insert(&mut list, &mut classes, 6, 60)?;
/// counted::insert(&mut list, &mut classes, 5, 50)?;
/// assert_eq!(counted::take(&mut list, &mut classes)?.key, 5);
/// assert_eq!(classes[..2], [1, 6]);
/// # Ok::<(), Refusal>(())
/// ```
pub fn take(list: &mut [u32], classes: &mut [u32]) -> Result<Taken, Refusal> {
    // SAFETY: as in `set_up`.
    Answered(unsafe { sys::counted_take(list.as_mut_ptr(), list.len(), classes.as_mut_ptr(), classes.len()) }).taken()
}

/// Finishes all that is owed and frees dead cells, as [`sweep`](fn@crate::sweep) does. What is live stays, and so does the record.
///
/// ```
/// # use mdlist_host::{counted, words_needed, Refusal, CLASS_WORDS};
/// # let (mut list, mut classes) = ([0u32; words_needed(2, 8)], [0u32; CLASS_WORDS]);
/// # counted::set_up(2, 15, 8, &mut list, &mut classes)?;
/// assert_eq!(counted::sweep(&mut list, &classes), Ok(0));
/// # Ok::<(), Refusal>(())
/// ```
pub fn sweep(list: &mut [u32], classes: &[u32]) -> Result<u32, Refusal> {
    // SAFETY: as in `finish`.
    Answered(unsafe { sys::counted_sweep(list.as_mut_ptr(), list.len(), classes.as_ptr(), classes.len()) }).swept()
}

/// Inserts what one record of the logger's export says, as [`record`](fn@crate::record) does, with `last` the last full number.
///
/// ```
/// # use mdlist_host::{counted, words_needed, Refusal, CLASS_WORDS, NONE_YET};
/// # let (mut list, mut classes) = ([0u32; words_needed(2, 8)], [0u32; CLASS_WORDS]);
/// # counted::set_up(2, u32::MAX, 8, &mut list, &mut classes)?;
/// let mut last = NONE_YET;
/// assert_eq!(counted::record(&mut list, &mut classes, b"2,1,0,text,7\r\n", &mut last)?.number, 65_543);
/// assert_eq!(counted::class(&classes, 2)?.count, 1);
/// # Ok::<(), Refusal>(())
/// ```
pub fn record(list: &mut [u32], classes: &mut [u32], bytes: &[u8], last: &mut u64) -> Result<Recorded, Refusal> {
    // SAFETY: as in `set_up`; the callee reads within the bytes alone, and writes `last`, which is lent to it alone.
    let a = checked(unsafe {
        sys::counted_record(list.as_mut_ptr(), list.len(), classes.as_mut_ptr(), classes.len(), bytes.as_ptr(), bytes.len(), last)
    })?;
    // an accepted record's full number has 32 bits
    Ok(Recorded { key: a.key, number: *last as u32, looked: a.count })
}

/// Writes what waits in a list to a file, as [`write`](fn@crate::write) does. The file does not hold the class record: it is read off the
/// list again.
///
/// ```
/// # use mdlist_host::{counted, words_needed, Refusal, CLASS_WORDS};
/// # let (mut list, mut classes) = ([0u32; words_needed(2, 8)], [0u32; CLASS_WORDS]);
/// # counted::set_up(2, 15, 8, &mut list, &mut classes)?;
/// assert_eq!(counted::write(&list, &classes, &mut [0; 33]), Ok(33));
/// assert_eq!(counted::write(&list, &classes, &mut [0; 32]), Err(Refusal::NoRoom));
/// assert_eq!(counted::write(&list, &classes[1..], &mut [0; 32]), Err(Refusal::BadClasses));
/// # Ok::<(), Refusal>(())
/// ```
pub fn write(list: &[u32], classes: &[u32], file: &mut [u8]) -> Result<usize, Refusal> {
    // SAFETY: the callee reads within list and record alone, and writes within the file's bytes alone.
    let a = unsafe { sys::counted_write(list.as_ptr(), list.len(), classes.as_ptr(), classes.len(), file.as_mut_ptr(), file.len()) };
    checked(a).map(|a| a.count as usize)
}

/// Makes the words the list that a file keeps, as [`read`](fn@crate::read) does, and the class record that of the list. What both held
/// before does not matter, but the record has to have [`CLASS_WORDS`] words.
///
/// ```
/// # use mdlist_host::{counted, file_length, words_needed, Refusal, CLASS_WORDS};
/// # let (mut list, mut classes) = ([0u32; words_needed(2, 8)], [0u32; CLASS_WORDS]);
/// # counted::set_up(2, 15, 8, &mut list, &mut classes)?;
/// counted::insert(&mut list, &mut classes, 6, 60)?;
/// let mut file = [0u8; file_length(1)];
/// counted::write(&list, &classes, &mut file)?;
/// classes.fill(7);
/// assert_eq!(counted::read(&file, &mut list, &mut classes), Ok(1));
/// assert_eq!(classes[..4], [1, 6, 0, 0]);
/// assert_eq!(counted::read(&file, &mut list, &mut classes[1..]), Err(Refusal::BadClasses));
/// # Ok::<(), Refusal>(())
/// ```
pub fn read(file: &[u8], list: &mut [u32], classes: &mut [u32]) -> Result<usize, Refusal> {
    // SAFETY: the callee reads within the file's bytes alone, and writes within list and record alone.
    let a = unsafe { sys::counted_read(file.as_ptr(), file.len(), list.as_mut_ptr(), list.len(), classes.as_mut_ptr(), classes.len()) };
    checked(a).map(|a| a.count as usize)
}

/// Makes many calls, as [`batch`](fn@crate::batch) does, after one check of the list and one comparison of the record, which is written
/// once.
///
/// ```
/// # use mdlist_host::{counted, words_needed, Answered, Call, Refusal, CLASS_WORDS};
/// # let (mut list, mut classes) = ([0u32; words_needed(2, 8)], [0u32; CLASS_WORDS]);
/// # counted::set_up(2, 15, 8, &mut list, &mut classes)?;
/// let mut answers = [Answered::NONE; 3];
/// let calls = [Call::insert(6, 60), Call::insert(5, 50), Call::take()];
/// assert_eq!(counted::batch(&mut list, &mut classes, &calls, &mut answers), Ok(3));
/// assert_eq!(answers[2].taken()?.key, 5);
/// assert_eq!(classes[..2], [1, 6]);
/// # Ok::<(), Refusal>(())
/// ```
pub fn batch(list: &mut [u32], classes: &mut [u32], calls: &[Call], answers: &mut [Answered]) -> Result<usize, Refusal> {
    let (calls_len, answers_len) = (size_of_val(calls) / size_of::<u32>(), size_of_val(answers) / size_of::<u32>());
    let (calls, answers) = (calls.as_ptr().cast(), answers.as_mut_ptr().cast());
    // SAFETY: as in `set_up`; calls and answers are words and nothing else, as asserted beside `Answered`, and any words are answers.
    let a = unsafe {
        sys::counted_batch(list.as_mut_ptr(), list.len(), classes.as_mut_ptr(), classes.len(), calls, calls_len, answers, answers_len)
    };
    checked(a).map(|a| a.count as usize)
}

/// How many keys of a class (0 to 15) are live, and the least of them, as the class record has them. It takes the record alone, and reads
/// two words of it, so it takes the same time for every list.
///
/// What it answers is the list's if the record is one that a counted call left. It does not look: the calls on the list do.
///
/// ```
/// use mdlist_host::{counted, InClass, Refusal, CLASS_WORDS};
/// let mut classes = [0u32; CLASS_WORDS];
/// classes[6..8].copy_from_slice(&[2, 805_306_368]);
/// assert_eq!(counted::class(&classes, 3), Ok(InClass { count: 2, least: 805_306_368 }));
/// assert_eq!(counted::class(&classes, 16), Err(Refusal::BadKey));
/// assert_eq!(counted::class(&classes[1..], 16), Err(Refusal::BadClasses));
/// ```
pub fn class(classes: &[u32], class: u32) -> Result<InClass, Refusal> {
    // SAFETY: the callee reads within the slice alone and writes nothing.
    checked(unsafe { sys::counted_class(classes.as_ptr(), classes.len(), class) }).map(|a| InClass { count: a.count, least: a.key })
}

/// A list and its class record in lent words, with the operations as methods.
///
/// Nothing is kept but the borrows: another `Counted` on the same words later goes on where this one ended.
///
/// ```
/// # use mdlist_host::*;
/// let (mut words, mut classes) = ([0u32; words_needed(2, 8)], [0u32; CLASS_WORDS]);
/// Counted::set_up(2, 15, 8, &mut words, &mut classes)?.insert(6, 60)?;
/// assert_eq!(Counted::new(&mut words, &mut classes).take()?.key, 6);
/// # Ok::<(), Refusal>(())
/// ```
#[derive(Debug)]
pub struct Counted<'a> {
    words: &'a mut [u32],
    classes: &'a mut [u32],
}

impl<'a> Counted<'a> {
    /// Makes the words a fresh list with its record, as [`set_up`] does, and holds both.
    ///
    /// ```
    /// # use mdlist_host::*;
    /// let (mut words, mut classes) = ([0u32; words_needed(2, 8)], [0u32; CLASS_WORDS]);
    /// assert!(Counted::set_up(2, 15, 8, &mut words, &mut classes).is_ok());
    /// assert!(matches!(Counted::set_up(2, 15, 8, &mut words, &mut classes[1..]), Err(Refusal::WrongLength)));
    /// ```
    pub fn set_up(d: u32, k: u32, c: u32, words: &'a mut [u32], classes: &'a mut [u32]) -> Result<Counted<'a>, Refusal> {
        set_up(d, k, c, words, classes)?;
        Ok(Counted { words, classes })
    }

    /// Makes the words the list that a file keeps, with its record, as [`read`](fn@read) does, and holds both.
    ///
    /// ```
    /// # use mdlist_host::*;
    /// # let (mut words, mut classes) = ([0u32; words_needed(2, 8)], [0u32; CLASS_WORDS]);
    /// # let mut list = Counted::set_up(2, 15, 8, &mut words, &mut classes)?;
    /// # list.insert(6, 60)?;
    /// let mut file = [0u8; file_length(1)];
    /// list.write(&mut file)?;
    /// let (mut words, mut classes) = ([0u32; words_needed(2, 8)], [7u32; CLASS_WORDS]);
    /// assert_eq!(Counted::read(&file, &mut words, &mut classes)?.class(0)?.least, 6);
    /// assert!(matches!(Counted::read(&file[1..], &mut words, &mut classes), Err(Refusal::BadFile)));
    /// # Ok::<(), Refusal>(())
    /// ```
    pub fn read(file: &[u8], words: &'a mut [u32], classes: &'a mut [u32]) -> Result<Counted<'a>, Refusal> {
        read(file, words, classes)?;
        Ok(Counted { words, classes })
    }

    /// Holds words that are a list and its record already. It does not look at them: each call checks both, and refuses words that are not
    /// a list and a record that is not the list's.
    ///
    /// ```
    /// # use mdlist_host::*;
    /// let (mut words, mut classes) = ([0u32; words_needed(2, 8)], [0u32; CLASS_WORDS]);
    /// assert_eq!(Counted::new(&mut words, &mut classes).take(), Err(Refusal::NotAList));
    /// List::set_up(2, 15, 8, &mut words)?.insert(6, 60)?;
    /// assert_eq!(Counted::new(&mut words, &mut classes).take(), Err(Refusal::BadClasses));
    /// # Ok::<(), Refusal>(())
    /// ```
    pub fn new(words: &'a mut [u32], classes: &'a mut [u32]) -> Counted<'a> {
        Counted { words, classes }
    }

    /// The list's words, to copy or to store.
    ///
    /// ```
    /// # use mdlist_host::*;
    /// # let (mut words, mut classes) = ([0u32; words_needed(2, 8)], [0u32; CLASS_WORDS]);
    /// let list = Counted::set_up(2, 15, 8, &mut words, &mut classes)?;
    /// assert_eq!(list.words()[..4], [2, 15, 8, 4]);
    /// # Ok::<(), Refusal>(())
    /// ```
    pub fn words(&self) -> &[u32] {
        self.words
    }

    /// The class record's words, to hand to a screen; [`class`] asks them.
    ///
    /// ```
    /// # use mdlist_host::*;
    /// # let (mut words, mut classes) = ([0u32; words_needed(2, 8)], [0u32; CLASS_WORDS]);
    /// let mut list = Counted::set_up(2, 15, 8, &mut words, &mut classes)?;
    /// list.insert(6, 60)?;
    /// assert_eq!(list.classes()[..2], [1, 6]);
    /// # Ok::<(), Refusal>(())
    /// ```
    pub fn classes(&self) -> &[u32] {
        self.classes
    }

    /// How many keys of a class are live, and the least of them, as [`class`] answers from the record alone.
    ///
    /// ```
    /// # use mdlist_host::*;
    /// # let (mut words, mut classes) = ([0u32; words_needed(2, 8)], [0u32; CLASS_WORDS]);
    /// # let mut list = Counted::set_up(2, 15, 8, &mut words, &mut classes)?;
    /// list.insert(6, 60)?;
    /// assert_eq!(list.class(0), Ok(InClass { count: 1, least: 6 }));
    /// assert_eq!(list.class(16), Err(Refusal::BadKey));
    /// # Ok::<(), Refusal>(())
    /// ```
    pub fn class(&self, number: u32) -> Result<InClass, Refusal> {
        class(self.classes, number)
    }

    /// Inserts a key with its value, as [`insert`] does.
    ///
    /// ```
    /// # use mdlist_host::*;
    /// # let (mut words, mut classes) = ([0u32; words_needed(2, 8)], [0u32; CLASS_WORDS]);
    /// # let mut list = Counted::set_up(2, 15, 8, &mut words, &mut classes)?;
    /// assert_eq!(list.insert(6, 60), Ok(0));
    /// # Ok::<(), Refusal>(())
    /// ```
    pub fn insert(&mut self, key: u32, value: u32) -> Result<u32, Refusal> {
        insert(self.words, self.classes, key, value)
    }

    /// Finds a live key, as [`find`] does.
    ///
    /// ```
    /// # use mdlist_host::*;
    /// # let (mut words, mut classes) = ([0u32; words_needed(2, 8)], [0u32; CLASS_WORDS]);
    /// # let mut list = Counted::set_up(2, 15, 8, &mut words, &mut classes)?;
    /// list.insert(6, 60)?;
    /// assert_eq!(list.find(6), Ok(Found { value: 60, looked: 1 }));
    /// # Ok::<(), Refusal>(())
    /// ```
    pub fn find(&self, key: u32) -> Result<Found, Refusal> {
        find(self.words, self.classes, key)
    }

    /// Finishes what a key's cell owes, as [`finish`] does.
    ///
    /// ```
    /// # use mdlist_host::*;
    /// # let (mut words, mut classes) = ([0u32; words_needed(2, 8)], [0u32; CLASS_WORDS]);
    /// # let mut list = Counted::set_up(2, 15, 8, &mut words, &mut classes)?;
    /// list.insert(6, 60)?;
    /// list.insert(5, 50)?;
    /// assert_eq!(list.finish(5), Ok(1));
    /// # Ok::<(), Refusal>(())
    /// ```
    pub fn finish(&mut self, key: u32) -> Result<u32, Refusal> {
        finish(self.words, self.classes, key)
    }

    /// Takes the least live key, as [`take`] does.
    ///
    /// ```
    /// # use mdlist_host::*;
    /// # let (mut words, mut classes) = ([0u32; words_needed(2, 8)], [0u32; CLASS_WORDS]);
    /// # let mut list = Counted::set_up(2, 15, 8, &mut words, &mut classes)?;
    /// list.insert(6, 60)?;
    /// assert_eq!(list.take(), Ok(Taken { key: 6, value: 60, passed: 1 }));
    /// assert_eq!(list.class(0)?.count, 0);
    /// # Ok::<(), Refusal>(())
    /// ```
    pub fn take(&mut self) -> Result<Taken, Refusal> {
        take(self.words, self.classes)
    }

    /// Finishes all that is owed and frees dead cells, as [`sweep`] does.
    ///
    /// ```
    /// # use mdlist_host::*;
    /// # let (mut words, mut classes) = ([0u32; words_needed(2, 8)], [0u32; CLASS_WORDS]);
    /// # let mut list = Counted::set_up(2, 15, 8, &mut words, &mut classes)?;
    /// list.insert(6, 60)?;
    /// list.insert(5, 50)?;
    /// list.take()?;
    /// list.take()?;
    /// assert_eq!(list.sweep(), Ok(1));
    /// # Ok::<(), Refusal>(())
    /// ```
    pub fn sweep(&mut self) -> Result<u32, Refusal> {
        sweep(self.words, self.classes)
    }

    /// Inserts what one record of a logger's export says, as [`record`] does with the last number that the logger keeps. A refused record
    /// leaves the last number.
    ///
    /// ```
    /// # use mdlist_host::*;
    /// # let (mut words, mut classes) = ([0u32; words_needed(2, 8)], [0u32; CLASS_WORDS]);
    /// # let mut list = Counted::set_up(2, u32::MAX, 8, &mut words, &mut classes)?;
    /// let mut logger = Logger::new();
    /// assert_eq!(list.record(b"2,1,0,text,7\r\n", &mut logger)?.number, 65_543);
    /// assert_eq!((logger.last(), list.class(2)?.count), (Some(65_543), 1));
    /// # Ok::<(), Refusal>(())
    /// ```
    pub fn record(&mut self, bytes: &[u8], logger: &mut Logger) -> Result<Recorded, Refusal> {
        record(self.words, self.classes, bytes, &mut logger.last)
    }

    /// Writes what waits to a file, as [`write`](fn@write) does.
    ///
    /// ```
    /// # use mdlist_host::*;
    /// # let (mut words, mut classes) = ([0u32; words_needed(2, 8)], [0u32; CLASS_WORDS]);
    /// # let mut list = Counted::set_up(2, 15, 8, &mut words, &mut classes)?;
    /// list.insert(6, 60)?;
    /// let mut file = [0u8; file_length(7)];
    /// assert_eq!(list.write(&mut file), Ok(41));
    /// # Ok::<(), Refusal>(())
    /// ```
    pub fn write(&self, file: &mut [u8]) -> Result<usize, Refusal> {
        write(self.words, self.classes, file)
    }

    /// Makes many calls after one check of list and record, as [`batch`] does.
    ///
    /// ```
    /// # use mdlist_host::*;
    /// # let (mut words, mut classes) = ([0u32; words_needed(2, 8)], [0u32; CLASS_WORDS]);
    /// # let mut list = Counted::set_up(2, 15, 8, &mut words, &mut classes)?;
    /// let mut answers = [Answered::NONE; 2];
    /// assert_eq!(list.batch(&[Call::insert(6, 60), Call::take()], &mut answers), Ok(2));
    /// assert_eq!(list.class(0)?.count, 0);
    /// # Ok::<(), Refusal>(())
    /// ```
    pub fn batch(&mut self, calls: &[Call], answers: &mut [Answered]) -> Result<usize, Refusal> {
        batch(self.words, self.classes, calls, answers)
    }
}
