//! The stack of every exported call, alone, with a class record and on a plain row: each is made on 8 KiB of its own, painted before and read
//! afterwards, and may need 2 KiB at most. The table of the bytes is shown by `host/test --test stack -- --nocapture`.
#![cfg(target_arch = "x86_64")]

mod common;

use common::{entry_key, fresh, Dice};
use mdlist_host::*;
use std::arch::asm;
use std::collections::BTreeSet;
use std::ffi::{c_int, c_void};
use std::hint::black_box;
use std::mem::{size_of, size_of_val};
use std::ops::Range;
use std::{iter, ptr, slice};

/// The most bytes that a call may need.
const MOST: usize = 2_048;

/// The bytes that the customer's host has for a call, and those of the guard page below them.
const USABLE: usize = 8_192;
const GUARD: usize = 4_096;

const DIMENSIONS: [u32; 3] = [2, 8, 16];
const K: u32 = u32::MAX;

/// The cells of most lists; there is one of each kind with `MOST_CELLS` too.
const C: u32 = 4_096;

/// The functions of the archive. Their addresses alone are used: `Stack::call` puts the arguments into the registers itself, so that no
/// frame but theirs is measured.
mod sys {
    extern "C" {
        pub fn mdlist_set_up();
        pub fn mdlist_insert();
        pub fn mdlist_find();
        pub fn mdlist_finish();
        pub fn mdlist_take();
        pub fn mdlist_sweep();
        pub fn mdlist_record();
        pub fn mdlist_batch();
        pub fn mdlist_write();
        pub fn mdlist_read();
        pub fn counted_set_up();
        pub fn counted_insert();
        pub fn counted_find();
        pub fn counted_finish();
        pub fn counted_take();
        pub fn counted_sweep();
        pub fn counted_record();
        pub fn counted_batch();
        pub fn counted_write();
        pub fn counted_read();
        pub fn counted_class();
        pub fn row_set_up();
        pub fn row_insert();
        pub fn row_find();
        pub fn row_finish();
        pub fn row_take();
        pub fn row_sweep();
    }
}

/// Functions and numbers of the C library, as Linux has them on x86-64.
mod c {
    use super::{c_int, c_void};

    pub const PROT_NONE: c_int = 0;
    pub const PROT_READ_AND_WRITE: c_int = 3;
    pub const MAP_PRIVATE_AND_ANONYMOUS: c_int = 0x22;

    extern "C" {
        pub fn mmap(at: *mut c_void, length: usize, protection: c_int, flags: c_int, file: c_int, offset: i64) -> *mut c_void;
        pub fn mprotect(at: *mut c_void, length: usize, protection: c_int) -> c_int;
    }
}

/// What an untouched word of a stack holds: not 0 and no address, which calls write often.
const PAINT: u64 = 0xA5C3_965A_3C69_F00F;

/// Words for a stack. The page below them can't be touched, so that a call that needs more ends the test and writes over nothing.
struct Stack(&'static mut [u64]);

impl Stack {
    fn new() -> Stack {
        // SAFETY: new pages at a place that the system chooses, so no memory in use is altered
        let lowest = unsafe { c::mmap(ptr::null_mut(), GUARD + USABLE, c::PROT_READ_AND_WRITE, c::MAP_PRIVATE_AND_ANONYMOUS, -1, 0) };
        // failure is answered by -1
        assert_ne!(lowest as isize, -1, "no memory for a stack");
        // SAFETY: the first of those pages, which nothing refers to
        assert_eq!(unsafe { c::mprotect(lowest, GUARD, c::PROT_NONE) }, 0, "no guard page");
        // SAFETY: the other pages are readable, writable and filled with 0; this slice alone refers to them, and they are never unmapped
        Stack(unsafe { slice::from_raw_parts_mut(lowest.byte_add(GUARD).cast(), USABLE / size_of::<u64>()) })
    }

    /// Paints the stack and calls a C function on it; answers the first word of its result, and the bytes that it needed. They count from
    /// the lowest word that was written up to the top, with the return address; what was set aside below and not written is not seen. The
    /// arguments past the sixth lie above the top, as the caller has put them there, and are not counted.
    ///
    /// # Safety
    ///
    /// The function does not unwind, answers two words at most, and may be called with the first of the arguments, as many as it has.
    unsafe fn call(&mut self, function: unsafe extern "C" fn(), arguments: [usize; 8]) -> (u64, usize) {
        let [a, b, c, d, e, f, above @ ..] = arguments;
        let top = self.0.len() - above.len();
        self.0[..top].fill(PAINT);
        self.0[top..].copy_from_slice(&above.map(|argument| argument as u64));
        let result;
        // SAFETY: the caller vouches for the call. The top is two words below the end of a page, so it is aligned as a call has to find it.
        // The old stack pointer waits in r12, which a C function leaves as it was; a second word of the result is in rdx, clobbered with the others
        unsafe {
            asm!(
                "xchg rsp, r12",
                "call r13",
                "mov rsp, r12",
                inout("r12") self.0.as_mut_ptr().add(top) => _,
                in("r13") function,
                in("rdi") a,
                in("rsi") b,
                in("rdx") c,
                in("rcx") d,
                in("r8") e,
                in("r9") f,
                lateout("rax") result,
                clobber_abi("C"),
            );
        }
        let untouched = self.0.iter().take_while(|word| **word == PAINT).count();
        (result, size_of_val(&self.0[untouched..top]))
    }
}

/// A call that is measured, with what is lent to it besides the list.
enum Asked<'a> {
    SetUp(u32, u32),
    Insert(u32),
    Find(u32),
    Finish(u32),
    Take,
    Sweep,
    Record(&'a [u8], &'a mut u64),
    Batch(&'a [Call], &'a mut [Answered]),
    Write(&'a mut [u8]),
    Read(&'a [u8]),
    /// The question about one class, which takes the record alone.
    Class(u32),
}

/// The arguments of a call in order, those that it does not have 0.
fn arguments(given: &[&[usize]]) -> [usize; 8] {
    let mut all = [0; 8];
    all.iter_mut().zip(given.concat()).for_each(|(to, argument)| *to = argument);
    all
}

/// Makes a call, with a class record or without; answers its refusal and the bytes of stack that it needed.
fn measured(stack: &mut Stack, list: &mut [u32], classes: Option<&mut [u32]>, asked: &mut Asked<'_>) -> (u32, usize) {
    let list = [list.as_mut_ptr() as usize, list.len()];
    // the functions of both archives
    type Both = [unsafe extern "C" fn(); 2];
    let is_counted = classes.is_some();
    let record: Vec<usize> = classes.map_or(vec![], |classes| vec![classes.as_mut_ptr() as usize, classes.len()]);
    let (functions, given): (Both, [usize; 8]) = match asked {
        Asked::SetUp(d, c) => {
            ([sys::mdlist_set_up, sys::counted_set_up], arguments(&[&[*d as usize, K as usize, *c as usize], &list, &record]))
        }
        Asked::Insert(key) => ([sys::mdlist_insert, sys::counted_insert], arguments(&[&list, &record, &[*key as usize, 1]])),
        Asked::Find(key) => ([sys::mdlist_find, sys::counted_find], arguments(&[&list, &record, &[*key as usize]])),
        Asked::Finish(key) => ([sys::mdlist_finish, sys::counted_finish], arguments(&[&list, &record, &[*key as usize]])),
        Asked::Take => ([sys::mdlist_take, sys::counted_take], arguments(&[&list, &record])),
        Asked::Sweep => ([sys::mdlist_sweep, sys::counted_sweep], arguments(&[&list, &record])),
        Asked::Record(bytes, last) => {
            let more = [bytes.as_ptr() as usize, bytes.len(), ptr::from_mut(*last) as usize];
            ([sys::mdlist_record, sys::counted_record], arguments(&[&list, &record, &more]))
        }
        Asked::Batch(calls, answers) => {
            let (calls_len, answers_len) = (size_of_val(*calls) / size_of::<u32>(), size_of_val(*answers) / size_of::<u32>());
            let more = [calls.as_ptr() as usize, calls_len, answers.as_mut_ptr() as usize, answers_len];
            ([sys::mdlist_batch, sys::counted_batch], arguments(&[&list, &record, &more]))
        }
        Asked::Write(file) => {
            ([sys::mdlist_write, sys::counted_write], arguments(&[&list, &record, &[file.as_mut_ptr() as usize, file.len()]]))
        }
        Asked::Read(file) => ([sys::mdlist_read, sys::counted_read], arguments(&[&[file.as_ptr() as usize, file.len()], &list, &record])),
        Asked::Class(class) => ([sys::counted_class; 2], arguments(&[&record, &[*class as usize]])),
    };
    // SAFETY: each function gets its own arguments in order, each pointer with the length of what is borrowed in `list`, `classes` or
    // `asked`. None unwinds, and an answer of four 32-bit words comes back in two, the refusal lowest
    let (result, bytes) = unsafe { stack.call(functions[usize::from(is_counted)], given) };
    (result as u32, bytes)
}

/// What a full reading of a list gives, or of what whole cells there are.
fn classes_of(list: &[u32]) -> Vec<u32> {
    let d = list[0] as usize;
    let mut classes = vec![0; CLASS_WORDS];
    for cell in list[5 + d..].chunks_exact(6 + d).filter(|cell| cell[2] == 1) {
        let at = 2 * (cell[0] / 268_435_456) as usize;
        classes[at + 1] = if classes[at] == 0 { cell[0] } else { cell[0].min(classes[at + 1]) };
        classes[at] += 1;
    }
    classes
}

/// The calls that were made, each with the D and C of its list and the bytes of stack that it needed.
struct Measure {
    stack: Stack,
    made: Vec<(String, [u32; 2], usize)>,
}

impl Measure {
    /// Makes a call on a copy of the list, and then the same with a class record on another copy. It looks that the refusal is the expected
    /// one, so that the call goes the way that is meant.
    fn make(&mut self, name: &str, list: &[u32], mut asked: Asked<'_>, expected: u32) {
        let last = if let Asked::Record(_, last) = &asked { **last } else { NONE_YET };
        self.make_one(name, list, None, &mut asked, expected);
        if let Asked::Record(_, again) = &mut asked {
            **again = last;
        }
        self.make_one(&format!("counted {name}"), list, Some(&classes_of(list)), &mut asked, expected);
    }

    fn make_one(&mut self, name: &str, list: &[u32], classes: Option<&[u32]>, asked: &mut Asked<'_>, expected: u32) {
        let (d, c) = (list[0], list[2]);
        let mut classes = classes.map(<[u32]>::to_vec);
        let (refusal, bytes) = measured(&mut self.stack, &mut list.to_vec(), classes.as_deref_mut(), asked);
        assert_eq!(refusal, expected, "{name}, D = {d}, C = {c}");
        self.made.push((name.to_string(), [d, c], bytes));
    }

    /// Makes a call on a copy of a plain row.
    fn make_on_row(&mut self, name: &str, row: &[u32], asked: Asked<'_>, expected: u32) {
        let ([d, c], mut copy) = ([row[0], row[2]], row.to_vec());
        let lent = [copy.as_mut_ptr() as usize, copy.len()];
        let (function, given): (unsafe extern "C" fn(), [usize; 8]) = match asked {
            Asked::SetUp(d, c) => (sys::row_set_up, arguments(&[&[d as usize, K as usize, c as usize], &lent])),
            Asked::Insert(key) => (sys::row_insert, arguments(&[&lent, &[key as usize, 1]])),
            Asked::Find(key) => (sys::row_find, arguments(&[&lent, &[key as usize]])),
            Asked::Finish(key) => (sys::row_finish, arguments(&[&lent, &[key as usize]])),
            Asked::Take => (sys::row_take, arguments(&[&lent])),
            Asked::Sweep => (sys::row_sweep, arguments(&[&lent])),
            _ => unreachable!("a row has six calls"),
        };
        // SAFETY: as in `measured`; the pointer goes with the length of the copy
        let (result, bytes) = unsafe { self.stack.call(function, given) };
        assert_eq!(result as u32, expected, "row {name}, D = {d}, C = {c}");
        self.made.push((format!("row {name}"), [d, c], bytes));
    }

    /// Makes calls that the record refuses, each on a copy of the list, and the question about a class.
    fn make_with_other_records(&mut self, list: &[u32], key: u32) {
        let mut differs = classes_of(list);
        differs[31] = differs[31].wrapping_add(1);
        for classes in [&differs[..], &differs[1..]] {
            self.make_one("counted find, record that differs", list, Some(classes), &mut Asked::Find(key), 15);
            self.make_one("counted batch, record that differs", list, Some(classes), &mut Asked::Batch(&[], &mut []), 15);
        }
        let file = written(list);
        self.make_one("counted read, record of another length", list, Some(&differs[1..]), &mut Asked::Read(&file), 15);
        for (classes, class, expected) in [(&differs[..], 15, 0), (&differs, 16, 4), (&differs[1..], 0, 15)] {
            self.make_one("class", list, Some(classes), &mut Asked::Class(class), expected);
        }
    }

    /// Makes a batch in the same way, with the expected refusal of each of its calls.
    fn make_batch(&mut self, name: &str, list: &[u32], calls: &[(Call, u32)]) {
        let (calls, expected): (Vec<Call>, Vec<u32>) = calls.iter().copied().unzip();
        for (name, classes) in [(name.to_string(), None), (format!("counted {name}"), Some(classes_of(list)))] {
            let mut answers = vec![Answered::NONE; calls.len()];
            self.make_one(&name, list, classes.as_deref(), &mut Asked::Batch(&calls, &mut answers), 0);
            // the refusal is read alike whatever the call
            let refusals: Vec<u32> = answers.iter().map(|answer| answer.found().map_or_else(Refusal::number, |_| 0)).collect();
            assert_eq!(refusals, expected, "{name}, D = {}", list[0]);
        }
    }

    /// The most bytes that a call of that name needed on a list of that D and C.
    fn most(&self, name: &str, sizes: [u32; 2]) -> usize {
        self.made.iter().filter(|made| (&made.0[..], made.1) == (name, sizes)).map(|made| made.2).max().unwrap_or(0)
    }

    /// The bytes by call, D and C, as the documents have tables.
    fn table(&self) -> String {
        let mut seen = BTreeSet::new();
        let names = self.made.iter().map(|made| &made.0).filter(|name| seen.insert(*name));
        let sizes: Vec<[u32; 2]> = [C, MOST_CELLS].iter().flat_map(|c| DIMENSIONS.map(|d| [d, *c])).collect();
        let cells = |cell: &dyn Fn([u32; 2]) -> String| sizes.iter().map(|sizes| format!(" {} |", cell(*sizes))).collect::<String>();
        let rows = names.map(|name| format!("| {name} |{}\n", cells(&|sizes| self.most(name, sizes).to_string())));
        let head = cells(&|[d, c]| format!("D = {d}, C = {c}"));
        format!("| call |{head}\n|---|{}\n{}", "---|".repeat(sizes.len()), rows.collect::<String>())
    }
}

/// Random keys; and before them one for each coordinate, with the digits 100.., 110.., 111.. and so on, so that the tree is D deep.
fn random_keys(d: u32, many: u32) -> Vec<u32> {
    let base = fresh(d, K, 3)[3];
    let stairs = (0..d).rev().scan(0, |key, power| {
        *key += base.pow(power);
        Some(*key)
    });
    let mut dice = Dice(u64::from(d));
    let draws = iter::repeat_with(|| ((dice.below(1 << 16) << 16) | dice.below(1 << 16)) as u32);
    let mut seen = BTreeSet::from([0, new_key()]);
    stairs.chain(draws).filter(|key| seen.insert(*key)).take(many as usize).collect()
}

/// A key that no list has before it is inserted. It is an entry's, so that a record can say it.
fn new_key() -> u32 {
    entry_key(0, 1, 0)
}

/// A record of that key, with text in quotes.
const NEW_RECORD: &[u8] = b"0,1,0,\"pump, \"\"B\"\" side\",17\r\n";

/// Lists to make calls on, and keys of theirs.
struct Lists {
    inserts: Vec<Call>,
    empty: Vec<u32>,
    /// After the inserts.
    all: Vec<u32>,
    /// After all but the last insert, so that a cell is free.
    less: Vec<u32>,
    /// Those two after half of the keys were taken.
    all_taken: Vec<u32>,
    less_taken: Vec<u32>,
    /// The greatest key.
    live: u32,
    /// The key that was taken last.
    dead: u32,
    /// A key whose cell owes something, if there is one.
    owes: u32,
}

/// The list after a batch on the ordinary stack, which refuses nothing.
fn after(list: &[u32], calls: &[Call]) -> Vec<u32> {
    let (mut list, mut answers) = (list.to_vec(), vec![Answered::NONE; calls.len()]);
    assert_eq!(batch(&mut list, calls, &mut answers), Ok(calls.len()));
    assert!(answers.iter().all(|answer| answer.found().is_ok()));
    list
}

/// The file of a list.
fn written(list: &[u32]) -> Vec<u8> {
    // word 2 is C
    let mut file = vec![0; file_length(list[2] as usize - 1)];
    let length = write(list, &mut file).expect("a list and room for any file");
    file.truncate(length);
    file
}

/// Where the words of a cell are: docs/REFERENCE.md, *The words*.
fn cell(list: &[u32], x: u32) -> Range<usize> {
    let d = list[0] as usize;
    let length = 6 + d;
    let first = 5 + d + x as usize * length;
    first..first + length
}

/// The keys whose cells owe.
fn owing(list: &[u32]) -> Vec<u32> {
    (1..list[2]).map(|x| &list[cell(list, x)]).filter(|words| words[3] != 0).map(|words| words[0]).collect()
}

/// The list with all links of a cell, its last words, leading to that cell, which is no list.
fn damaged(list: &[u32], x: u32) -> Vec<u32> {
    let mut list = list.to_vec();
    let (d, end) = (list[0] as usize, cell(&list, x).end);
    list[end - d..end].fill(x);
    list
}

impl Lists {
    fn of([d, c]: [u32; 2], mut keys: Vec<u32>) -> Lists {
        let inserts: Vec<Call> = keys.iter().map(|key| Call::insert(*key, key / 2)).collect();
        let half = keys.len() / 2;
        let takes = vec![Call::take(); half];
        let empty = fresh(d, K, c);
        let (all, less) = (after(&empty, &inserts), after(&empty, &inserts[..inserts.len() - 1]));
        let (all_taken, less_taken) = (after(&all, &takes), after(&less, &takes));
        keys.sort_unstable();
        let (live, dead) = (keys[keys.len() - 1], keys[half - 1]);
        let owes = owing(&all_taken).last().copied().unwrap_or(live);
        Lists { inserts, empty, all, less, all_taken, less_taken, live, dead, owes }
    }

    /// Calls of every kind for the list of which half was taken, with their refusals.
    fn mixed(&self) -> [(Call, u32); 12] {
        [
            (Call::insert(self.live, 1), 5),
            (Call::insert(self.dead, 1), 0),
            (Call::take(), 0),
            (Call::finish(self.owes), 0),
            (Call::find(self.live), 0),
            (Call::find(self.dead), 8),
            // frees cells, also for the new key
            (Call::sweep(), 0),
            (Call::insert(new_key(), 1), 0),
            (Call::insert(self.dead, 1), 0),
            (Call::take(), 0),
            (Call::take(), 0),
            (Call::sweep(), 0),
        ]
    }

    /// Makes every call, some on several lists, for a call may need more on one than on another.
    fn make_all(&self, measure: &mut Measure) {
        let Lists { all, all_taken, live, .. } = self;
        measure.make("set_up", all, Asked::SetUp(all[0], all[2]), 0);
        // word 4 is the first free cell, if there is one
        let if_full = if all[4] == 0 { 6 } else { 0 };
        let for_new_key = [(&self.less, 0), (&self.less_taken, 0), (all, if_full)];
        for (list, refusal) in for_new_key {
            measure.make("insert, new key", list, Asked::Insert(new_key()), refusal);
        }
        measure.make("insert, live key", all, Asked::Insert(*live), 5);
        measure.make("insert, dead key", all_taken, Asked::Insert(self.dead), 0);
        for list in [all, all_taken] {
            measure.make("find", list, Asked::Find(*live), 0);
            measure.make("find", list, Asked::Find(new_key()), 8);
            measure.make("finish", list, Asked::Finish(self.owes), 0);
            measure.make("take", list, Asked::Take, 0);
            measure.make("sweep", list, Asked::Sweep, 0);
        }
        for (list, refusal) in for_new_key {
            measure.make("record", list, Asked::Record(NEW_RECORD, &mut { NONE_YET }), refusal);
        }
        measure.make_batch("batch of inserts", &self.empty, &self.inserts.iter().map(|call| (*call, 0)).collect::<Vec<_>>());
        measure.make_batch("batch of every kind", all_taken, &self.mixed());
        for list in [&self.empty, all, all_taken] {
            let file = written(list);
            measure.make("write", list, Asked::Write(&mut file.clone()), 0);
            measure.make("write", list, Asked::Write(&mut [0; 32]), 12);
            measure.make("read", all, Asked::Read(&file), 0);
            measure.make("read", &all[..all.len() - 1], Asked::Read(&file), 2);
            // a byte is missing, and then the last pair is the one before it again
            measure.make("read, bytes that are no file", all, Asked::Read(&file[..file.len() - 1]), 11);
            if let Some(from) = file.len().checked_sub(16).filter(|from| *from >= file_length(0)) {
                let twice = [&file[..from + 8], &file[from..from + 8]].concat();
                measure.make("read, bytes that are no file", all, Asked::Read(&twice), 11);
            }
        }
        // of large lists a few, since each is checked whole
        for x in (1..all[2]).step_by(if all[2] == C { 256 } else { all[2] as usize / 3 }) {
            measure.make("write, words that are no list", &damaged(all, x), Asked::Write(&mut [0; 32]), 3);
            measure.make("find, words that are no list", &damaged(all, x), Asked::Find(*live), 3);
        }
        for list in [&self.empty, all, all_taken] {
            measure.make_with_other_records(list, *live);
        }
    }
}

/// The words of a plain row with the keys 2, 4, 6 and so on, the first of them dead: docs/REFERENCE.md, *The plain row*.
fn row_of([d, c]: [u32; 2], keys: u32, dead: u32) -> Vec<u32> {
    let mut row = vec![0; row_words(c)];
    row[..5].copy_from_slice(&[d, K, c, keys, 2 * dead]);
    for (place, words) in (1..=keys).zip(row[5..].chunks_exact_mut(3)) {
        words.copy_from_slice(&if place <= dead { [2 * place, 0, 2] } else { [2 * place, place, 1] });
    }
    row
}

/// Makes every call on rows: empty, with a free place, full, and each of those two with half of the keys taken.
fn make_all_on_rows(measure: &mut Measure, sizes @ [d, c]: [u32; 2]) {
    let (empty, room, full) = (row_of(sizes, 0, 0), row_of(sizes, c - 2, 0), row_of(sizes, c - 1, 0));
    let (room_taken, full_taken) = (row_of(sizes, c - 2, c / 2), row_of(sizes, c - 1, c / 2));
    // a key before all, between, and behind all
    for key in [1, c + 1, 3 * c] {
        for (row, refusal) in [(&empty, 0), (&room, 0), (&room_taken, 0), (&full, 6), (&full_taken, 6)] {
            measure.make_on_row("insert, new key", row, Asked::Insert(key), refusal);
            measure.make_on_row("find", row, Asked::Find(key), 8);
            measure.make_on_row("finish", row, Asked::Finish(key), 8);
        }
    }
    let greatest = 2 * (c - 2);
    for row in [&room, &room_taken, &full, &full_taken] {
        measure.make_on_row("set_up", row, Asked::SetUp(d, c), 0);
        measure.make_on_row("insert, live key", row, Asked::Insert(greatest), 5);
        measure.make_on_row("find", row, Asked::Find(greatest), 0);
        measure.make_on_row("finish", row, Asked::Finish(greatest), 0);
        measure.make_on_row("take", row, Asked::Take, 0);
        measure.make_on_row("sweep", row, Asked::Sweep, 0);
        // the last word is that of an unused place, or a mark
        let mut no_row = row.to_vec();
        no_row[row_words(c) - 1] = 3;
        measure.make_on_row("find, words that are no row", &no_row, Asked::Find(greatest), 3);
    }
    measure.make_on_row("insert, dead key", &full_taken, Asked::Insert(2 * (c / 2)), 0);
    measure.make_on_row("take, nothing live", &row_of(sizes, c - 1, c - 1), Asked::Take, 7);
    measure.make_on_row("sweep", &row_of(sizes, c - 1, c - 1), Asked::Sweep, 0);
}

#[test]
fn every_call_needs_at_most_2_kib() {
    let mut measure = Measure { stack: Stack::new(), made: Vec::new() };
    for d in DIMENSIONS {
        for many in [C - 1, C / 2] {
            let lists = Lists::of([d, C], random_keys(d, many));
            assert!(owing(&lists.all_taken).len() > 5, "too few cells owe");
            lists.make_all(&mut measure);
        }
    }
    // siblings, each hanging from the one before, for they differ in the last coordinate alone
    Lists::of([2, C], (1..C).collect()).make_all(&mut measure);
    // the largest lists: full, in random order, and at D = 2, where that would walk far, descending siblings in a few long rows
    for d in [8, 16] {
        let lists = Lists::of([d, MOST_CELLS], random_keys(d, MOST_CELLS - 1));
        assert!(owing(&lists.all_taken).len() > 5, "too few cells owe");
        lists.make_all(&mut measure);
    }
    let above_new = new_key() + 1;
    Lists::of([2, MOST_CELLS], (above_new..above_new + MOST_CELLS - 1).rev().collect()).make_all(&mut measure);
    for d in DIMENSIONS {
        make_all_on_rows(&mut measure, [d, C]);
        make_all_on_rows(&mut measure, [d, MOST_CELLS]);
    }
    let table = measure.table();
    println!("{table}");
    assert!(measure.made.iter().all(|made| made.2 <= MOST), "a call needs more than {MOST} bytes:\n{table}");
}

/// A return address, and no more.
extern "C" fn does_nothing() {}

extern "C" fn fills_1_kib() {
    black_box([1u64; 128]);
}

/// Without this a measure that sees nothing would pass.
#[test]
fn what_is_written_is_counted() {
    let mut stack = Stack::new();
    for (function, least, most) in [(does_nothing as extern "C" fn(), 8, 128), (fills_1_kib, 8 + 1_024, USABLE)] {
        // SAFETY: a function without arguments or answer that does not unwind
        let (_, bytes) = unsafe { stack.call(function, [0; 8]) };
        assert!((least..=most).contains(&bytes), "{bytes}");
    }
}
