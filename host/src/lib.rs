//! The proved waiting list, called from Rust.
//!
//! A list lives in a slice of 32-bit words that the host lends. Every call checks the words it is given, refuses by number what it can't
//! do, and alters nothing when it refuses. Nothing here allocates or panics. The behaviour is in `docs/REFERENCE.md`, which is cited by
//! its headings.
//!
//! A [`List`] holds the lent words and has the operations as methods:
//!
//! ```
//! use mdlist_host::{words_needed, List, Refusal};
//!
//! let mut words = [0u32; words_needed(2, 8)];
//! let mut list = List::set_up(2, 15, 8, &mut words)?;
//! list.insert(6, 60)?;
//! list.insert(5, 50)?;
//! assert_eq!(list.find(6)?.value, 60);
//! assert_eq!(list.insert(6, 61), Err(Refusal::KeyLive { looked: 2 }));
//! assert_eq!(list.take()?.key, 5);
//! assert_eq!(list.take()?.key, 6);
//! assert_eq!(list.take(), Err(Refusal::NothingLive { above: 0 }));
//! # Ok::<(), Refusal>(())
//! ```
//!
//! The same operations are functions on the words, for a host that keeps them in a place of its own:
//!
//! ```
//! use mdlist_host::{insert, set_up, take, words_needed, Refusal};
//!
//! let mut words = [0u32; words_needed(2, 8)];
//! set_up(2, 15, 8, &mut words)?;
//! insert(&mut words, 6, 60)?;
//! assert_eq!(take(&mut words)?.value, 60);
//! # Ok::<(), Refusal>(())
//! ```
//!
//! A [`Logger`] puts records of the logger's export into a list and keeps the last number:
//!
//! ```
//! use mdlist_host::{words_needed, List, Logger, Refusal};
//!
//! let mut words = [0u32; words_needed(8, 512)];
//! let mut list = List::set_up(8, u32::MAX, 512, &mut words)?;
//! let mut logger = Logger::new();
//! logger.record(&mut list, b"1,117,0,\"valve 3, \"\"B\"\" side\",65535\r\n")?;
//! logger.record(&mut list, b"0,117,0,door open,0\r\n")?;
//! assert_eq!(list.take()?.value, 131_072);
//! assert_eq!(list.take()?.value, 131_071);
//! # Ok::<(), Refusal>(())
//! ```
//!
//! Most of a call's time is the check that the words are a list. A [`batch`](List::batch) makes many calls after one check, and
//! [`drain`](List::drain) takes all that is live so:
//!
//! ```
//! use mdlist_host::{words_needed, Answered, Call, List, Refusal};
//!
//! let mut words = [0u32; words_needed(2, 8)];
//! let mut list = List::set_up(2, 15, 8, &mut words)?;
//! let mut answers = [Answered::NONE; 4];
//! list.batch(&[Call::insert(6, 60), Call::insert(5, 50), Call::insert(9, 90), Call::take()], &mut answers)?;
//! assert_eq!(answers[3].taken()?.key, 5);
//! let mut left = 0;
//! assert_eq!(list.drain(|taken| left += taken.value)?, 2);
//! assert_eq!(left, 150);
//! # Ok::<(), Refusal>(())
//! ```
//!
//! What waits is kept over a restart in a file: [`write`](List::write) puts it into bytes of at least [`file_length`], and
//! [`read`](List::read) makes a list of them. Where the bytes go is the host's choice; `examples/restart.rs` keeps them in a file of its
//! system:
//!
//! ```
//! use mdlist_host::{file_length, words_needed, List, Refusal};
//!
//! let mut words = [0u32; words_needed(2, 8)];
//! let mut list = List::set_up(2, 15, 8, &mut words)?;
//! list.insert(6, 60)?;
//! list.insert(5, 50)?;
//! let mut file = [0u8; file_length(7)];
//! let length = list.write(&mut file)?;
//! assert_eq!(length, file_length(2));
//! let mut words = [0u32; words_needed(2, 8)];
//! let mut list = List::read(&file[..length], &mut words)?;
//! assert_eq!(list.take()?.value, 50);
//! # Ok::<(), Refusal>(())
//! ```
//!
//! A screen that must not read the list has beside it a class record, which says how many keys of each class wait and which is the least:
//! [`Counted`] holds both and keeps the record as the list is, and [`counted::class`] asks the record alone:
//!
//! ```
//! use mdlist_host::{counted, words_needed, Counted, Refusal, CLASS_WORDS};
//!
//! let (mut words, mut classes) = ([0u32; words_needed(8, 512)], [0u32; CLASS_WORDS]);
//! let mut list = Counted::set_up(8, u32::MAX, 512, &mut words, &mut classes)?;
//! list.insert(268_914_688, 41)?;
//! assert_eq!(counted::class(&classes, 1)?.count, 1);
//! # Ok::<(), Refusal>(())
//! ```
//!
//! For acceptance there is a second engine, a plain [`Row`] of keys in words of its own, which is proved to answer as the list does:
//!
//! ```
//! use mdlist_host::{row_words, Refusal, Row};
//!
//! let mut words = [0u32; row_words(8)];
//! let mut row = Row::set_up(2, 15, 8, &mut words)?;
//! row.insert(6, 60)?;
//! row.insert(5, 50)?;
//! assert_eq!(row.take()?.value, 50);
//! # Ok::<(), Refusal>(())
//! ```
#![no_std]
#![deny(missing_docs)]

use core::fmt;
use core::mem::{align_of, size_of, size_of_val};

pub mod counted;
pub mod row;

pub use counted::{Counted, InClass, CLASS_WORDS};
pub use row::{row_words, Row};

mod sys {
    #[repr(C)]
    #[derive(Clone, Copy, Debug, PartialEq, Eq)]
    pub struct Answer {
        pub refusal: u32,
        pub key: u32,
        pub value: u32,
        pub count: u32,
    }

    extern "C" {
        pub fn mdlist_set_up(d: u32, k: u32, c: u32, list: *mut u32, len: usize) -> Answer;
        pub fn mdlist_insert(list: *mut u32, len: usize, key: u32, value: u32) -> Answer;
        pub fn mdlist_find(list: *const u32, len: usize, key: u32) -> Answer;
        pub fn mdlist_finish(list: *mut u32, len: usize, key: u32) -> Answer;
        pub fn mdlist_take(list: *mut u32, len: usize) -> Answer;
        pub fn mdlist_sweep(list: *mut u32, len: usize) -> Answer;
        pub fn mdlist_record(list: *mut u32, len: usize, record: *const u8, record_len: usize, last: *mut u64) -> Answer;
        pub fn mdlist_batch(
            list: *mut u32,
            len: usize,
            calls: *const u32,
            calls_len: usize,
            answers: *mut u32,
            answers_len: usize,
        ) -> Answer;
        pub fn mdlist_write(list: *const u32, len: usize, file: *mut u8, file_len: usize) -> Answer;
        pub fn mdlist_read(file: *const u8, file_len: usize, list: *mut u32, len: usize) -> Answer;
    }
}

/// Why a call was refused: docs/REFERENCE.md, *Refusals*. A refused call has altered nothing of what was lent to it.
///
/// It is an error with a text, so that `?` hands it on in a function that answers any error:
///
/// ```
/// use mdlist_host::{words_needed, List};
///
/// fn first(words: &mut [u32]) -> Result<u32, Box<dyn std::error::Error>> {
///     Ok(List::set_up(2, 15, 8, words)?.take()?.key)
/// }
///
/// let error = first(&mut [0; words_needed(2, 8)]).expect_err("the list is empty");
/// assert_eq!(error.to_string(), "refusal 7: nothing is live; standing keys above the position: 0");
/// ```
#[derive(Clone, Copy, Debug, PartialEq, Eq)]
pub enum Refusal {
    /// 1, set up: D, K or C is out of range.
    OutOfRange,
    /// 2, set up, read: the slice has not exactly [`words_needed`] words, for a row [`row_words`]; counted set up: or the class record has
    /// not [`CLASS_WORDS`].
    WrongLength,
    /// 3: the words are not a list, or for a call on a row not a row.
    NotAList,
    /// 4: the key is 0 or above K; the question about a class: it is above 15.
    BadKey,
    /// 5, insert, record: the key is live already.
    KeyLive {
        /// How many cells the search looked at, 0 on a row.
        looked: u32,
    },
    /// 6, insert, record: the key does not stand and there is no free cell; a sweep may free some.
    NoFreeCell {
        /// How many cells the search looked at, 0 on a row.
        looked: u32,
    },
    /// 7, take: nothing is live.
    NothingLive {
        /// How many standing keys are above the position.
        above: u32,
    },
    /// 8, find: the key is not live; finish: the key does not stand.
    NotThere {
        /// How many cells a find looked at; 0 for a finish, and on a row.
        looked: u32,
    },
    /// 11, read: the bytes are no file; one may be cut, torn or altered.
    BadFile,
    /// 12, write: the bytes are fewer than the file has; [`file_length`] says how many are needed.
    NoRoom,
    /// 13, record: the bytes break the grammar of a record, or a field is out of its range.
    BadRecord,
    /// 14, record: the full number is below 0 or above 4,294,967,295.
    NumberOutside,
    /// 15, counted calls: the class record has not [`CLASS_WORDS`] words, or is not what a full reading of the list gives. A read and the
    /// question about a class are refused by it for the length alone.
    BadClasses,
    /// 19, batch: fewer answers are lent than there are calls, or there are more than 4,294,967,295 calls. Words that are no calls are
    /// refused by it too, but no [`Call`] is such.
    BadBatch,
    /// A number that no call answers: the archive and this package do not belong together, or [`Answered::NONE`] was read.
    Unknown(u32),
}

impl Refusal {
    /// The number in docs/REFERENCE.md, *Refusals*.
    ///
    /// ```
    /// assert_eq!(mdlist_host::Refusal::NotAList.number(), 3);
    /// ```
    pub const fn number(self) -> u32 {
        match self {
            Refusal::OutOfRange => 1,
            Refusal::WrongLength => 2,
            Refusal::NotAList => 3,
            Refusal::BadKey => 4,
            Refusal::KeyLive { .. } => 5,
            Refusal::NoFreeCell { .. } => 6,
            Refusal::NothingLive { .. } => 7,
            Refusal::NotThere { .. } => 8,
            Refusal::BadFile => 11,
            Refusal::NoRoom => 12,
            Refusal::BadRecord => 13,
            Refusal::NumberOutside => 14,
            Refusal::BadClasses => 15,
            Refusal::BadBatch => 19,
            Refusal::Unknown(number) => number,
        }
    }
}

impl fmt::Display for Refusal {
    fn fmt(&self, f: &mut fmt::Formatter<'_>) -> fmt::Result {
        write!(f, "refusal {}: ", self.number())?;
        match self {
            Refusal::OutOfRange => f.write_str("D, K or C is out of range"),
            Refusal::WrongLength => f.write_str("the slice has not the exact length"),
            Refusal::NotAList => f.write_str("the words are not a list, or not a row"),
            Refusal::BadKey => f.write_str("the key is 0 or above K, or the class above 15"),
            Refusal::KeyLive { looked } => write!(f, "the key is live already; cells looked at: {looked}"),
            Refusal::NoFreeCell { looked } => write!(f, "no cell is free; cells looked at: {looked}"),
            Refusal::NothingLive { above } => write!(f, "nothing is live; standing keys above the position: {above}"),
            Refusal::NotThere { looked } => write!(f, "the key is not there; cells looked at: {looked}"),
            Refusal::BadFile => f.write_str("the bytes are not a file of a list"),
            Refusal::NoRoom => f.write_str("there is no room for the file"),
            Refusal::BadRecord => f.write_str("the record breaks the grammar or a field's range"),
            Refusal::NumberOutside => f.write_str("the full number does not fit in 32 bits"),
            Refusal::BadClasses => f.write_str("the class record is not the list's, or has not 32 words"),
            Refusal::BadBatch => f.write_str("the words are no batch of calls, or there is no room for the answers"),
            Refusal::Unknown(_) => f.write_str("no call answers it; the archive and the package do not belong together"),
        }
    }
}

impl core::error::Error for Refusal {}

impl From<Refusal> for u32 {
    fn from(refusal: Refusal) -> u32 {
        refusal.number()
    }
}

/// What [`find`] answers.
#[derive(Clone, Copy, Debug, PartialEq, Eq)]
pub struct Found {
    /// The value that the key was last inserted with.
    pub value: u32,
    /// How many cells the search looked at, 0 on a row.
    pub looked: u32,
}

/// What [`take`] answers.
#[derive(Clone, Copy, Debug, PartialEq, Eq)]
pub struct Taken {
    /// The least live key.
    pub key: u32,
    /// The value that it was last inserted with.
    pub value: u32,
    /// How many standing keys lay above the old position and up to this one.
    pub passed: u32,
}

/// What [`record`] answers.
#[derive(Clone, Copy, Debug, PartialEq, Eq)]
pub struct Recorded {
    /// The key of the record's entry: docs/REFERENCE.md, *Entries*.
    pub key: u32,
    /// The full number, which is the key's value now.
    pub number: u32,
    /// How many cells the search looked at.
    pub looked: u32,
}

/// The last number while no record has been accepted. Every number above says the same.
///
/// ```
/// assert_eq!(mdlist_host::NONE_YET, u64::from(u32::MAX) + 1);
/// ```
pub const NONE_YET: u64 = 4_294_967_296;

/// The most cells that a list can have.
///
/// ```
/// # use mdlist_host::*;
/// let mut words = vec![0; words_needed(2, MOST_CELLS)];
/// assert_eq!(set_up(2, 15, MOST_CELLS, &mut words), Ok(()));
/// assert_eq!(set_up(2, 15, MOST_CELLS + 1, &mut words), Err(Refusal::OutOfRange));
/// ```
pub const MOST_CELLS: u32 = 262_144;

/// How many words a list with D dimensions and C cells has: 5 + D + C(6+D).
///
/// ```
/// # use mdlist_host::{words_needed, MOST_CELLS};
/// assert_eq!(words_needed(8, 512), 7_181);
/// assert_eq!(words_needed(16, MOST_CELLS), 5_767_189);
/// ```
pub const fn words_needed(d: u32, c: u32) -> usize {
    5 + d as usize + c as usize * (6 + d as usize)
}

/// The most live keys whose number stands in a file in two bytes; that of more has four.
const MOST_IN_TWO_BYTES: usize = 65_535;

/// How many bytes the file of a list with so many live keys has: 33 and 8 for each, and 2 more if there are more than 65,535. With C cells
/// there are C - 1 at most.
///
/// ```
/// # use mdlist_host::{file_length, MOST_CELLS};
/// assert_eq!(file_length(0), 33);
/// assert_eq!(file_length(4_096 - 1), 32_793);
/// assert_eq!(file_length(65_535), 524_313);
/// assert_eq!(file_length(65_536), 524_323);
/// assert_eq!(file_length(MOST_CELLS as usize - 1), 2_097_179);
/// ```
pub const fn file_length(live: usize) -> usize {
    let before_the_keys = if live <= MOST_IN_TWO_BYTES { 33 } else { 35 };
    before_the_keys + 8 * live
}

fn checked(a: sys::Answer) -> Result<sys::Answer, Refusal> {
    match a.refusal {
        0 => Ok(a),
        1 => Err(Refusal::OutOfRange),
        2 => Err(Refusal::WrongLength),
        3 => Err(Refusal::NotAList),
        4 => Err(Refusal::BadKey),
        5 => Err(Refusal::KeyLive { looked: a.count }),
        6 => Err(Refusal::NoFreeCell { looked: a.count }),
        7 => Err(Refusal::NothingLive { above: a.count }),
        8 => Err(Refusal::NotThere { looked: a.count }),
        11 => Err(Refusal::BadFile),
        12 => Err(Refusal::NoRoom),
        13 => Err(Refusal::BadRecord),
        14 => Err(Refusal::NumberOutside),
        15 => Err(Refusal::BadClasses),
        19 => Err(Refusal::BadBatch),
        number => Err(Refusal::Unknown(number)),
    }
}

/// Makes the words a fresh list with D dimensions (2 to 16), keys 1 to K, and C cells (3 to [`MOST_CELLS`]) of which one is the head.
///
/// ```
/// use mdlist_host::{set_up, Refusal};
/// let mut short = [0u32; 86];
/// assert_eq!(set_up(2, 15, 8, &mut short), Err(Refusal::WrongLength));
/// assert_eq!(set_up(17, 15, 8, &mut short), Err(Refusal::OutOfRange));
/// ```
pub fn set_up(d: u32, k: u32, c: u32, list: &mut [u32]) -> Result<(), Refusal> {
    // SAFETY: a slice is its pointer and its length, and the callee writes within them alone.
    checked(unsafe { sys::mdlist_set_up(d, k, c, list.as_mut_ptr(), list.len()) }).map(|_| ())
}

/// Inserts a key with its value; answers how many cells the search looked at.
///
/// ```
/// # use mdlist_host::*;
/// let mut list = [0u32; words_needed(2, 8)];
/// set_up(2, 15, 8, &mut list)?;
/// assert_eq!(insert(&mut list, 6, 60), Ok(0));
/// assert_eq!(insert(&mut list, 16, 60), Err(Refusal::BadKey));
/// # Ok::<(), Refusal>(())
/// ```
pub fn insert(list: &mut [u32], key: u32, value: u32) -> Result<u32, Refusal> {
    // SAFETY: as in `set_up`.
    Answered(unsafe { sys::mdlist_insert(list.as_mut_ptr(), list.len(), key, value) }).inserted()
}

/// Finds a live key; writes nothing.
///
/// ```
/// # use mdlist_host::*;
/// let mut list = [0u32; words_needed(2, 8)];
/// set_up(2, 15, 8, &mut list)?;
/// insert(&mut list, 6, 60)?;
/// assert_eq!(find(&list, 6), Ok(Found { value: 60, looked: 1 }));
/// assert_eq!(find(&list, 7), Err(Refusal::NotThere { looked: 1 }));
/// # Ok::<(), Refusal>(())
/// ```
pub fn find(list: &[u32], key: u32) -> Result<Found, Refusal> {
    // SAFETY: the callee reads within the slice alone and writes nothing.
    Answered(unsafe { sys::mdlist_find(list.as_ptr(), list.len(), key) }).found()
}

/// Finishes what a key's cell owes; answers how many links were moved. The key may be dead.
///
/// ```
/// # use mdlist_host::*;
/// let mut list = [0u32; words_needed(2, 8)];
/// set_up(2, 15, 8, &mut list)?;
/// insert(&mut list, 6, 60)?;
/// insert(&mut list, 5, 50)?;
/// assert_eq!(finish(&mut list, 5), Ok(1));
/// assert_eq!(finish(&mut list, 5), Ok(0));
/// # Ok::<(), Refusal>(())
/// ```
pub fn finish(list: &mut [u32], key: u32) -> Result<u32, Refusal> {
    // SAFETY: as in `set_up`.
    Answered(unsafe { sys::mdlist_finish(list.as_mut_ptr(), list.len(), key) }).finished()
}

/// Takes the least live key.
///
/// ```
/// # use mdlist_host::*;
/// let mut list = [0u32; words_needed(2, 8)];
/// set_up(2, 15, 8, &mut list)?;
/// insert(&mut list, 6, 60)?;
/// assert_eq!(take(&mut list), Ok(Taken { key: 6, value: 60, passed: 1 }));
/// # Ok::<(), Refusal>(())
/// ```
pub fn take(list: &mut [u32]) -> Result<Taken, Refusal> {
    // SAFETY: as in `set_up`.
    Answered(unsafe { sys::mdlist_take(list.as_mut_ptr(), list.len()) }).taken()
}

/// Finishes all that is owed and frees the dead cells before the position; answers how many were freed.
///
/// ```
/// # use mdlist_host::*;
/// let mut list = [0u32; words_needed(2, 8)];
/// set_up(2, 15, 8, &mut list)?;
/// insert(&mut list, 6, 60)?;
/// insert(&mut list, 5, 50)?;
/// take(&mut list)?;
/// take(&mut list)?;
/// assert_eq!(sweep(&mut list), Ok(1));
/// # Ok::<(), Refusal>(())
/// ```
pub fn sweep(list: &mut [u32]) -> Result<u32, Refusal> {
    // SAFETY: as in `set_up`.
    Answered(unsafe { sys::mdlist_sweep(list.as_mut_ptr(), list.len()) }).swept()
}

/// Inserts what one record of the logger's export says, with the full number as value: docs/REFERENCE.md, *Records*.
///
/// `last` is the last full number, [`NONE_YET`] or more if there is none. An accepted record makes it the record's full number; a refused
/// one leaves it.
///
/// ```
/// # use mdlist_host::*;
/// let mut list = [0u32; words_needed(2, 8)];
/// set_up(2, u32::MAX, 8, &mut list)?;
/// let mut last = NONE_YET;
/// assert_eq!(record(&mut list, b"0,1,2,text,7\r\n", &mut last), Ok(Recorded { key: 4_098, number: 65_543, looked: 0 }));
/// assert_eq!(last, 65_543);
/// assert_eq!(record(&mut list, b"0,1,2,7\r\n", &mut last), Err(Refusal::BadRecord));
/// assert_eq!(record(&mut list, b"0,1,2,text,8", &mut last), Err(Refusal::KeyLive { looked: 1 }));
/// assert_eq!(last, 65_543);
/// assert_eq!(find(&list, 4_098)?.value, 65_543);
/// # Ok::<(), Refusal>(())
/// ```
pub fn record(list: &mut [u32], bytes: &[u8], last: &mut u64) -> Result<Recorded, Refusal> {
    // SAFETY: as in `set_up`; the callee reads within the bytes alone, and writes `last`, which is lent to it alone.
    let a = checked(unsafe { sys::mdlist_record(list.as_mut_ptr(), list.len(), bytes.as_ptr(), bytes.len(), last) })?;
    // an accepted record's full number has 32 bits
    Ok(Recorded { key: a.key, number: *last as u32, looked: a.count })
}

/// Writes what waits in a list to a file: the settings, and each live key with its value; answers how many bytes the file has. The bytes
/// past it are kept: docs/REFERENCE.md, *The operations 9* and *Files*.
///
/// Dead keys are not written, and so neither is the position. [`file_length`] says how many bytes are needed.
///
/// ```
/// # use mdlist_host::*;
/// let mut list = [0u32; words_needed(2, 8)];
/// set_up(2, 15, 8, &mut list)?;
/// insert(&mut list, 6, 60)?;
/// let mut file = [7u8; 50];
/// assert_eq!(write(&list, &mut file), Ok(41));
/// assert_eq!(file[31..41], [0, 1, 0, 0, 0, 6, 0, 0, 0, 60]);
/// assert_eq!(file[41..], [7; 9]);
/// assert_eq!(write(&list, &mut file[..40]), Err(Refusal::NoRoom));
/// # Ok::<(), Refusal>(())
/// ```
pub fn write(list: &[u32], file: &mut [u8]) -> Result<usize, Refusal> {
    // SAFETY: the callee reads within the list alone, and writes within the file's bytes alone.
    checked(unsafe { sys::mdlist_write(list.as_ptr(), list.len(), file.as_mut_ptr(), file.len()) }).map(|a| a.count as usize)
}

/// Makes the words the list that a file keeps, with the file's settings; answers how many keys wait in it: docs/REFERENCE.md,
/// *The operations 10*.
///
/// The bytes have to be the file and nothing more, as [`write`](fn@write) answers its length. What the words held before does not matter, but there
/// have to be exactly [`words_needed`] of them for the D and C of the file.
///
/// ```
/// # use mdlist_host::*;
/// let mut list = [0u32; words_needed(2, 8)];
/// set_up(2, 15, 8, &mut list)?;
/// insert(&mut list, 6, 60)?;
/// let mut file = [0u8; file_length(1)];
/// write(&list, &mut file)?;
/// let mut other = [0u32; words_needed(2, 8)];
/// assert_eq!(read(&file, &mut other), Ok(1));
/// assert_eq!(find(&other, 6)?.value, 60);
/// assert_eq!(read(&file, &mut other[1..]), Err(Refusal::WrongLength));
/// assert_eq!(read(&file[..40], &mut other), Err(Refusal::BadFile));
/// # Ok::<(), Refusal>(())
/// ```
pub fn read(file: &[u8], list: &mut [u32]) -> Result<usize, Refusal> {
    // SAFETY: the callee reads within the file's bytes alone, and writes within the list alone.
    checked(unsafe { sys::mdlist_read(file.as_ptr(), file.len(), list.as_mut_ptr(), list.len()) }).map(|a| a.count as usize)
}

/// A call of a [`batch`], made by the function of its name.
///
/// It is the three words that the batch reads, kind, key and value, with those that a call does not need 0; so calls are handed over where
/// they stand, and nothing is allocated. An enum would leave the words unset that a variant does not need, and may not be read as words.
///
/// ```
/// # use mdlist_host::*;
/// const CALLS: [Call; 2] = [Call::insert(6, 60), Call::take()];
/// let mut list = [0u32; words_needed(2, 8)];
/// set_up(2, 15, 8, &mut list)?;
/// assert_eq!(batch(&mut list, &CALLS, &mut [Answered::NONE; 2]), Ok(2));
/// assert_eq!(format!("{CALLS:?}"), "[insert(6, 60), take()]");
/// # Ok::<(), Refusal>(())
/// ```
#[repr(transparent)]
#[derive(Clone, Copy, PartialEq, Eq)]
pub struct Call([u32; 3]);

impl Call {
    /// An [`insert`].
    ///
    /// ```
    /// # use mdlist_host::*;
    /// # let mut list = [0u32; words_needed(2, 8)];
    /// # set_up(2, 15, 8, &mut list)?;
    /// let mut answers = [Answered::NONE; 1];
    /// batch(&mut list, &[Call::insert(6, 60)], &mut answers)?;
    /// assert_eq!(find(&list, 6)?.value, 60);
    /// # Ok::<(), Refusal>(())
    /// ```
    pub const fn insert(key: u32, value: u32) -> Call {
        Call([1, key, value])
    }

    /// A [`find`].
    ///
    /// ```
    /// # use mdlist_host::*;
    /// # let mut list = [0u32; words_needed(2, 8)];
    /// # set_up(2, 15, 8, &mut list)?;
    /// let mut answers = [Answered::NONE; 1];
    /// batch(&mut list, &[Call::find(6)], &mut answers)?;
    /// assert_eq!(answers[0].found(), Err(Refusal::NotThere { looked: 0 }));
    /// # Ok::<(), Refusal>(())
    /// ```
    pub const fn find(key: u32) -> Call {
        Call([2, key, 0])
    }

    /// A [`finish`].
    ///
    /// ```
    /// # use mdlist_host::*;
    /// # let mut list = [0u32; words_needed(2, 8)];
    /// # set_up(2, 15, 8, &mut list)?;
    /// let mut answers = [Answered::NONE; 3];
    /// batch(&mut list, &[Call::insert(6, 60), Call::insert(5, 50), Call::finish(5)], &mut answers)?;
    /// assert_eq!(finish(&mut list, 5), Ok(0));
    /// # Ok::<(), Refusal>(())
    /// ```
    pub const fn finish(key: u32) -> Call {
        Call([3, key, 0])
    }

    /// A [`take`].
    ///
    /// ```
    /// # use mdlist_host::*;
    /// # let mut list = [0u32; words_needed(2, 8)];
    /// # set_up(2, 15, 8, &mut list)?;
    /// let mut answers = [Answered::NONE; 1];
    /// batch(&mut list, &[Call::take()], &mut answers)?;
    /// assert_eq!(answers[0].taken(), Err(Refusal::NothingLive { above: 0 }));
    /// # Ok::<(), Refusal>(())
    /// ```
    pub const fn take() -> Call {
        Call([4, 0, 0])
    }

    /// A [`sweep`].
    ///
    /// ```
    /// # use mdlist_host::*;
    /// # let mut list = [0u32; words_needed(2, 8)];
    /// # set_up(2, 15, 8, &mut list)?;
    /// let mut answers = [Answered::NONE; 1];
    /// batch(&mut list, &[Call::sweep()], &mut answers)?;
    /// assert_eq!(answers[0].swept(), Ok(0));
    /// # Ok::<(), Refusal>(())
    /// ```
    pub const fn sweep() -> Call {
        Call([5, 0, 0])
    }
}

impl fmt::Debug for Call {
    fn fmt(&self, f: &mut fmt::Formatter<'_>) -> fmt::Result {
        let [kind, key, value] = self.0;
        match kind {
            1 => write!(f, "insert({key}, {value})"),
            2 => write!(f, "find({key})"),
            3 => write!(f, "finish({key})"),
            4 => f.write_str("take()"),
            _ => f.write_str("sweep()"),
        }
    }
}

/// The answer to a [`Call`] of a [`batch`]: the four numbers of docs/REFERENCE.md, *The operations*.
///
/// It does not know which call it answers: it is read by the method that goes with the call, and then says what the function of the call
/// would have answered.
///
/// ```
/// # use mdlist_host::*;
/// let mut list = [0u32; words_needed(2, 8)];
/// set_up(2, 15, 8, &mut list)?;
/// let mut answers = [Answered::NONE; 3];
/// batch(&mut list, &[Call::insert(6, 60), Call::insert(16, 0), Call::take()], &mut answers)?;
/// assert_eq!(answers[0].inserted(), Ok(0));
/// assert_eq!(answers[1].inserted(), Err(Refusal::BadKey));
/// assert_eq!(answers[2].taken(), Ok(Taken { key: 6, value: 60, passed: 1 }));
/// # Ok::<(), Refusal>(())
/// ```
#[repr(transparent)]
#[derive(Clone, Copy, Debug, PartialEq, Eq)]
pub struct Answered(sys::Answer);

impl Answered {
    /// Room for an answer. It reads as a refusal, so that an answer past those of a batch is not taken for that of an accepted call.
    ///
    /// ```
    /// # use mdlist_host::*;
    /// assert_eq!(Answered::NONE.taken(), Err(Refusal::Unknown(u32::MAX)));
    /// ```
    pub const NONE: Answered = Answered(sys::Answer { refusal: u32::MAX, key: 0, value: 0, count: 0 });

    /// What [`insert`] answers, for a [`Call::insert`].
    ///
    /// ```
    /// # use mdlist_host::*;
    /// # let mut list = [0u32; words_needed(2, 8)];
    /// # set_up(2, 15, 8, &mut list)?;
    /// let mut answers = [Answered::NONE; 2];
    /// batch(&mut list, &[Call::insert(6, 60), Call::insert(5, 50)], &mut answers)?;
    /// assert_eq!(answers[1].inserted(), Ok(1));
    /// # Ok::<(), Refusal>(())
    /// ```
    pub fn inserted(self) -> Result<u32, Refusal> {
        checked(self.0).map(|a| a.count)
    }

    /// What [`find`] answers, for a [`Call::find`].
    ///
    /// ```
    /// # use mdlist_host::*;
    /// # let mut list = [0u32; words_needed(2, 8)];
    /// # set_up(2, 15, 8, &mut list)?;
    /// let mut answers = [Answered::NONE; 2];
    /// batch(&mut list, &[Call::insert(6, 60), Call::find(6)], &mut answers)?;
    /// assert_eq!(answers[1].found(), Ok(Found { value: 60, looked: 1 }));
    /// # Ok::<(), Refusal>(())
    /// ```
    pub fn found(self) -> Result<Found, Refusal> {
        checked(self.0).map(|a| Found { value: a.value, looked: a.count })
    }

    /// What [`finish`] answers, for a [`Call::finish`].
    ///
    /// ```
    /// # use mdlist_host::*;
    /// # let mut list = [0u32; words_needed(2, 8)];
    /// # set_up(2, 15, 8, &mut list)?;
    /// let mut answers = [Answered::NONE; 3];
    /// batch(&mut list, &[Call::insert(6, 60), Call::insert(5, 50), Call::finish(5)], &mut answers)?;
    /// assert_eq!(answers[2].finished(), Ok(1));
    /// # Ok::<(), Refusal>(())
    /// ```
    pub fn finished(self) -> Result<u32, Refusal> {
        checked(self.0).map(|a| a.count)
    }

    /// What [`take`] answers, for a [`Call::take`].
    ///
    /// ```
    /// # use mdlist_host::*;
    /// # let mut list = [0u32; words_needed(2, 8)];
    /// # set_up(2, 15, 8, &mut list)?;
    /// let mut answers = [Answered::NONE; 2];
    /// batch(&mut list, &[Call::insert(6, 60), Call::take()], &mut answers)?;
    /// assert_eq!(answers[1].taken(), Ok(Taken { key: 6, value: 60, passed: 1 }));
    /// # Ok::<(), Refusal>(())
    /// ```
    pub fn taken(self) -> Result<Taken, Refusal> {
        checked(self.0).map(|a| Taken { key: a.key, value: a.value, passed: a.count })
    }

    /// What [`sweep`] answers, for a [`Call::sweep`].
    ///
    /// ```
    /// # use mdlist_host::*;
    /// # let mut list = [0u32; words_needed(2, 8)];
    /// # set_up(2, 15, 8, &mut list)?;
    /// let mut answers = [Answered::NONE; 5];
    /// batch(&mut list, &[Call::insert(6, 60), Call::insert(5, 50), Call::take(), Call::take(), Call::sweep()], &mut answers)?;
    /// assert_eq!(answers[4].swept(), Ok(1));
    /// # Ok::<(), Refusal>(())
    /// ```
    pub fn swept(self) -> Result<u32, Refusal> {
        checked(self.0).map(|a| a.count)
    }
}

// what lets `batch` hand calls and answers over as words
const _: () = assert!(size_of::<Call>() == 3 * size_of::<u32>() && align_of::<Call>() == align_of::<u32>());
const _: () = assert!(size_of::<Answered>() == 4 * size_of::<u32>() && align_of::<Answered>() == align_of::<u32>());

/// Makes many calls, one after the other, after one check of the list; answers how many: docs/REFERENCE.md, *The operations 8*.
///
/// They answer and leave what they would if each was made alone. A refused call among them does not stop those after it, and is no refusal
/// of the batch: its answer says so. Answers past the number of calls are kept. If the batch is refused, no call is made and no answer
/// written.
///
/// ```
/// # use mdlist_host::*;
/// let mut list = [0u32; words_needed(2, 8)];
/// set_up(2, 15, 8, &mut list)?;
/// let mut answers = [Answered::NONE; 4];
/// assert_eq!(batch(&mut list, &[Call::insert(6, 60), Call::find(7), Call::take()], &mut answers), Ok(3));
/// assert_eq!(answers[0].inserted(), Ok(0));
/// assert_eq!(answers[1].found(), Err(Refusal::NotThere { looked: 1 }));
/// assert_eq!(answers[2].taken()?.value, 60);
/// assert_eq!(answers[3], Answered::NONE);
/// assert_eq!(batch(&mut list, &[Call::take(); 5], &mut answers), Err(Refusal::BadBatch));
/// # Ok::<(), Refusal>(())
/// ```
pub fn batch(list: &mut [u32], calls: &[Call], answers: &mut [Answered]) -> Result<usize, Refusal> {
    let (calls_len, answers_len) = (size_of_val(calls) / size_of::<u32>(), size_of_val(answers) / size_of::<u32>());
    // SAFETY: as in `set_up`; calls and answers are words and nothing else, as asserted above, and any words are answers.
    let a = unsafe {
        sys::mdlist_batch(list.as_mut_ptr(), list.len(), calls.as_ptr().cast(), calls_len, answers.as_mut_ptr().cast(), answers_len)
    };
    checked(a).map(|a| a.count as usize)
}

/// How many takes [`drain`] makes after one check of the list.
const AT_ONCE: usize = 256;

static TAKES: [Call; AT_ONCE] = [Call::take(); AT_ONCE];

/// Taken entries that [`drain`] has not handed over yet. If it is left before, by unwinding, they are put back.
struct Unhanded<'a> {
    list: &'a mut [u32],
    answers: core::slice::Iter<'a, Answered>,
}

impl Drop for Unhanded<'_> {
    fn drop(&mut self) {
        for taken in self.answers.by_ref().filter_map(|answer| answer.taken().ok()) {
            // the key stands and is dead: an insert that revives it is not refused
            _ = insert(self.list, taken.key, taken.value);
        }
    }
}

/// Takes all that is live, the least key first, and hands each over to `each`; answers how many there were.
///
/// It makes batches of 256 takes, so that there is one check for as many, with 4 KiB of stack for the answers. The words are left as by
/// takes up to the one that is refused by 7. It is refused by 3 alone, and then nothing has been taken.
///
/// There is no iterator in its place: one that is dropped or forgotten before its end would hold entries that are taken and that nobody was
/// given. Here every taken entry goes to `each`; if `each` unwinds, those that it was not given yet are inserted again. To stop after some
/// entries, make a [`batch`] of as many takes.
///
/// ```
/// # use mdlist_host::*;
/// let mut list = [0u32; words_needed(2, 8)];
/// set_up(2, 15, 8, &mut list)?;
/// insert(&mut list, 6, 60)?;
/// insert(&mut list, 5, 50)?;
/// let mut keys = Vec::new();
/// assert_eq!(drain(&mut list, |taken| keys.push(taken.key)), Ok(2));
/// assert_eq!(keys, [5, 6]);
/// assert_eq!(drain(&mut list, |taken| keys.push(taken.key)), Ok(0));
/// # Ok::<(), Refusal>(())
/// ```
pub fn drain(list: &mut [u32], mut each: impl FnMut(Taken)) -> Result<u32, Refusal> {
    let mut taken = 0;
    let mut answers = [Answered::NONE; AT_ONCE];
    loop {
        batch(list, &TAKES, &mut answers)?;
        let mut unhanded = Unhanded { list, answers: answers.iter() };
        for answer in unhanded.answers.by_ref() {
            match answer.taken() {
                Ok(entry) => each(entry),
                // so are the takes after it
                Err(Refusal::NothingLive { .. }) => return Ok(taken),
                Err(refusal) => return Err(refusal),
            }
            taken += 1;
        }
    }
}

/// A list in lent words, with the operations as methods. A record needs the last number too, which no list holds: [`Logger::record`].
///
/// Nothing is kept but the borrow: another `List` on the same words later goes on where this one ended.
///
/// ```
/// # use mdlist_host::*;
/// let mut words = [0u32; words_needed(2, 8)];
/// List::set_up(2, 15, 8, &mut words)?.insert(6, 60)?;
/// assert_eq!(List::new(&mut words).take()?.key, 6);
/// # Ok::<(), Refusal>(())
/// ```
#[derive(Debug)]
pub struct List<'a> {
    words: &'a mut [u32],
}

impl<'a> List<'a> {
    /// Makes the words a fresh list, as [`set_up`] does, and holds them.
    ///
    /// ```
    /// # use mdlist_host::*;
    /// let mut words = [0u32; words_needed(2, 8)];
    /// assert!(List::set_up(2, 15, 8, &mut words).is_ok());
    /// assert!(matches!(List::set_up(2, 0, 8, &mut words), Err(Refusal::OutOfRange)));
    /// ```
    pub fn set_up(d: u32, k: u32, c: u32, words: &'a mut [u32]) -> Result<List<'a>, Refusal> {
        set_up(d, k, c, words)?;
        Ok(List { words })
    }

    /// Makes the words the list that a file keeps, as [`read`](fn@read) does, and holds them.
    ///
    /// ```
    /// # use mdlist_host::*;
    /// # let mut words = [0u32; words_needed(2, 8)];
    /// # let mut list = List::set_up(2, 15, 8, &mut words)?;
    /// # list.insert(6, 60)?;
    /// let mut file = [0u8; file_length(1)];
    /// list.write(&mut file)?;
    /// let mut words = [0u32; words_needed(2, 8)];
    /// assert_eq!(List::read(&file, &mut words)?.take()?.value, 60);
    /// assert!(matches!(List::read(&file[1..], &mut words), Err(Refusal::BadFile)));
    /// # Ok::<(), Refusal>(())
    /// ```
    pub fn read(file: &[u8], words: &'a mut [u32]) -> Result<List<'a>, Refusal> {
        read(file, words)?;
        Ok(List { words })
    }

    /// Holds words that are a list already. It does not look at them: each call checks them, and refuses words that are not a list.
    ///
    /// ```
    /// # use mdlist_host::*;
    /// let mut words = [0u32; words_needed(2, 8)];
    /// assert_eq!(List::new(&mut words).take(), Err(Refusal::NotAList));
    /// ```
    pub fn new(words: &'a mut [u32]) -> List<'a> {
        List { words }
    }

    /// The words, to copy or to store.
    ///
    /// ```
    /// # use mdlist_host::*;
    /// let mut words = [0u32; words_needed(2, 8)];
    /// let list = List::set_up(2, 15, 8, &mut words)?;
    /// assert_eq!(list.words()[..4], [2, 15, 8, 4]);
    /// # Ok::<(), Refusal>(())
    /// ```
    pub fn words(&self) -> &[u32] {
        self.words
    }

    /// Inserts a key with its value, as [`insert`] does.
    ///
    /// ```
    /// # use mdlist_host::*;
    /// # let mut words = [0u32; words_needed(2, 8)];
    /// # let mut list = List::set_up(2, 15, 8, &mut words)?;
    /// assert_eq!(list.insert(6, 60), Ok(0));
    /// # Ok::<(), Refusal>(())
    /// ```
    pub fn insert(&mut self, key: u32, value: u32) -> Result<u32, Refusal> {
        insert(self.words, key, value)
    }

    /// Finds a live key, as [`find`] does.
    ///
    /// ```
    /// # use mdlist_host::*;
    /// # let mut words = [0u32; words_needed(2, 8)];
    /// # let mut list = List::set_up(2, 15, 8, &mut words)?;
    /// list.insert(6, 60)?;
    /// assert_eq!(list.find(6), Ok(Found { value: 60, looked: 1 }));
    /// # Ok::<(), Refusal>(())
    /// ```
    pub fn find(&self, key: u32) -> Result<Found, Refusal> {
        find(self.words, key)
    }

    /// Finishes what a key's cell owes, as [`finish`] does.
    ///
    /// ```
    /// # use mdlist_host::*;
    /// # let mut words = [0u32; words_needed(2, 8)];
    /// # let mut list = List::set_up(2, 15, 8, &mut words)?;
    /// list.insert(6, 60)?;
    /// list.insert(5, 50)?;
    /// assert_eq!(list.finish(5), Ok(1));
    /// # Ok::<(), Refusal>(())
    /// ```
    pub fn finish(&mut self, key: u32) -> Result<u32, Refusal> {
        finish(self.words, key)
    }

    /// Takes the least live key, as [`take`] does.
    ///
    /// ```
    /// # use mdlist_host::*;
    /// # let mut words = [0u32; words_needed(2, 8)];
    /// # let mut list = List::set_up(2, 15, 8, &mut words)?;
    /// list.insert(6, 60)?;
    /// assert_eq!(list.take(), Ok(Taken { key: 6, value: 60, passed: 1 }));
    /// # Ok::<(), Refusal>(())
    /// ```
    pub fn take(&mut self) -> Result<Taken, Refusal> {
        take(self.words)
    }

    /// Finishes all that is owed and frees dead cells, as [`sweep`] does.
    ///
    /// ```
    /// # use mdlist_host::*;
    /// # let mut words = [0u32; words_needed(2, 8)];
    /// # let mut list = List::set_up(2, 15, 8, &mut words)?;
    /// list.insert(6, 60)?;
    /// list.insert(5, 50)?;
    /// list.take()?;
    /// list.take()?;
    /// assert_eq!(list.sweep(), Ok(1));
    /// # Ok::<(), Refusal>(())
    /// ```
    pub fn sweep(&mut self) -> Result<u32, Refusal> {
        sweep(self.words)
    }

    /// Writes what waits to a file, as [`write`](fn@write) does.
    ///
    /// ```
    /// # use mdlist_host::*;
    /// # let mut words = [0u32; words_needed(2, 8)];
    /// # let mut list = List::set_up(2, 15, 8, &mut words)?;
    /// let mut file = [0u8; file_length(7)];
    /// assert_eq!(list.write(&mut file), Ok(33));
    /// list.insert(6, 60)?;
    /// assert_eq!(list.write(&mut file), Ok(41));
    /// # Ok::<(), Refusal>(())
    /// ```
    pub fn write(&self, file: &mut [u8]) -> Result<usize, Refusal> {
        write(self.words, file)
    }

    /// Makes many calls after one check of the words, as [`batch`] does.
    ///
    /// ```
    /// # use mdlist_host::*;
    /// # let mut words = [0u32; words_needed(2, 8)];
    /// # let mut list = List::set_up(2, 15, 8, &mut words)?;
    /// let mut answers = [Answered::NONE; 2];
    /// assert_eq!(list.batch(&[Call::insert(6, 60), Call::take()], &mut answers), Ok(2));
    /// assert_eq!(answers[1].taken(), Ok(Taken { key: 6, value: 60, passed: 1 }));
    /// # Ok::<(), Refusal>(())
    /// ```
    pub fn batch(&mut self, calls: &[Call], answers: &mut [Answered]) -> Result<usize, Refusal> {
        batch(self.words, calls, answers)
    }

    /// Takes all that is live and hands it over, the least key first, as [`drain`] does.
    ///
    /// ```
    /// # use mdlist_host::*;
    /// # let mut words = [0u32; words_needed(2, 8)];
    /// # let mut list = List::set_up(2, 15, 8, &mut words)?;
    /// list.insert(6, 60)?;
    /// list.insert(5, 50)?;
    /// let mut values = Vec::new();
    /// assert_eq!(list.drain(|taken| values.push(taken.value)), Ok(2));
    /// assert_eq!(values, [50, 60]);
    /// # Ok::<(), Refusal>(())
    /// ```
    pub fn drain(&mut self, each: impl FnMut(Taken)) -> Result<u32, Refusal> {
        drain(self.words, each)
    }
}

/// The last full number of a logger, from which that of its next record is worked out: docs/REFERENCE.md, *Records*.
///
/// No list is kept: the number outlives a list that is set up anew.
///
/// ```
/// # use mdlist_host::*;
/// let mut logger = Logger::new();
/// let mut words = [0u32; words_needed(2, 8)];
/// logger.record(&mut List::set_up(2, u32::MAX, 8, &mut words)?, b"0,1,0,,9")?;
/// logger.record(&mut List::set_up(2, u32::MAX, 8, &mut words)?, b"0,1,0,,8")?;
/// assert_eq!(logger.last(), Some(65_544));
/// # Ok::<(), Refusal>(())
/// ```
#[derive(Clone, Debug, PartialEq, Eq)]
pub struct Logger {
    last: u64,
}

impl Logger {
    /// A logger of which no record has been accepted yet.
    ///
    /// ```
    /// # use mdlist_host::*;
    /// assert_eq!(Logger::new().last(), None);
    /// assert_eq!(Logger::new(), Logger::default());
    /// ```
    pub const fn new() -> Logger {
        Logger { last: NONE_YET }
    }

    /// A logger whose last full number is known, as from before a restart.
    ///
    /// ```
    /// # use mdlist_host::*;
    /// # let mut words = [0u32; words_needed(2, 8)];
    /// # let mut list = List::set_up(2, u32::MAX, 8, &mut words)?;
    /// let mut logger = Logger::after(200_000);
    /// assert_eq!(logger.last(), Some(200_000));
    /// assert_eq!(logger.record(&mut list, b"0,1,0,,3393")?.number, 200_001);
    /// # Ok::<(), Refusal>(())
    /// ```
    pub const fn after(last: u32) -> Logger {
        Logger { last: last as u64 }
    }

    /// The full number of the last accepted record, to store; none if there was no such record.
    ///
    /// ```
    /// # use mdlist_host::*;
    /// # let mut words = [0u32; words_needed(2, 8)];
    /// # let mut list = List::set_up(2, u32::MAX, 8, &mut words)?;
    /// let mut logger = Logger::new();
    /// assert_eq!(logger.last(), None);
    /// logger.record(&mut list, b"0,1,0,,7")?;
    /// assert_eq!(logger.last(), Some(65_543));
    /// # Ok::<(), Refusal>(())
    /// ```
    pub fn last(&self) -> Option<u32> {
        u32::try_from(self.last).ok()
    }

    /// Inserts what one record says, as [`record`] does. A refused record leaves the last number.
    ///
    /// ```
    /// # use mdlist_host::*;
    /// # let mut words = [0u32; words_needed(2, 8)];
    /// # let mut list = List::set_up(2, u32::MAX, 8, &mut words)?;
    /// let mut logger = Logger::after(0);
    /// assert_eq!(logger.record(&mut list, b"0,1,2,,65535"), Err(Refusal::NumberOutside));
    /// assert_eq!(logger.record(&mut list, b"0,1,2,,1"), Ok(Recorded { key: 4_098, number: 1, looked: 0 }));
    /// # Ok::<(), Refusal>(())
    /// ```
    pub fn record(&mut self, list: &mut List<'_>, bytes: &[u8]) -> Result<Recorded, Refusal> {
        record(list.words, bytes, &mut self.last)
    }
}

impl Default for Logger {
    fn default() -> Logger {
        Logger::new()
    }
}
