//! The time of each operation on half-full lists, beside reading every word of the same buffer once, and beside the same calls on an
//! ordered map, which checks nothing. Medians of one run. Words are read in two ways: `sum` adds them up, several at once as the compiler
//! likes it; `loads` reads each by a load of its own.
//!
//! Then the time of each of many calls: made alone, made in one batch, which checks the list once, and made on the map. `drain` takes all.
//!
//! Then write and read of full lists, beside one check of the same list, for which a find stands.
//!
//! Then full lists by their cells, up to as many as there can be: what the calls cost for each word, and what a find in a batch costs.
//!
//! Then calls with a class record beside the same calls on the list alone, and the question about one class.
//!
//! Then calls on a plain row beside the same calls on a list of the same keys.
//!
//! Names as arguments (`operations`, `keys`, `batches`, `files`, `cells`, `classes`, `rows`) ask for those tables alone.

use mdlist_host::*;
use std::cell::RefCell;
use std::collections::{BTreeMap, BTreeSet};
use std::env;
use std::hint::black_box;
use std::time::Instant;

type Map = BTreeMap<u32, u32>;

const ROUNDS: usize = 201;
/// The rounds of a batch, and of many calls that are made alone.
const BATCH_ROUNDS: usize = 51;
const ALONE_ROUNDS: usize = 3;
/// The calls of a batch, or as many as there is room for in the list.
const CALLS: u32 = 1000;

/// D, K and C of the lists.
const LISTS: [(u32, u32, u32); 5] =
    [(8, 1_048_575, 512), (8, u32::MAX, 1024), (8, u32::MAX, 4096), (16, u32::MAX, 4096), (2, u32::MAX, 4096)];

/// The times of a call in nanoseconds, the least first; `before` is not timed.
fn times(rounds: usize, mut before: impl FnMut(), mut call: impl FnMut()) -> Vec<f64> {
    let mut times = Vec::with_capacity(rounds);
    for _ in 0..rounds {
        before();
        let start = Instant::now();
        call();
        times.push(start.elapsed().as_nanos() as f64);
    }
    times.sort_by(f64::total_cmp);
    times
}

fn median(rounds: usize, before: impl FnMut(), call: impl FnMut()) -> f64 {
    times(rounds, before, call)[rounds / 2]
}

/// Numbers from 1 to k, without end.
fn numbers(mut seed: u64, k: u32) -> impl Iterator<Item = u32> {
    std::iter::repeat_with(move || {
        seed = seed.wrapping_mul(6_364_136_223_846_793_005).wrapping_add(1_442_695_040_888_963_407);
        1 + ((seed >> 20) % u64::from(k)) as u32
    })
}

/// A list with `keys` keys, and a map with the same.
fn filled(d: u32, k: u32, c: u32, keys: u32) -> (Vec<u32>, Map) {
    let mut list = vec![0; words_needed(d, c)];
    set_up(d, k, c, &mut list).expect("settings in range");
    let mut map = BTreeMap::new();
    for key in numbers(7, k) {
        if map.len() == keys as usize {
            break;
        }
        if insert(&mut list, key, key).is_ok() {
            map.insert(key, key);
        }
    }
    (list, map)
}

fn each_operation() {
    println!("{:>3} {:>11} {:>5}  {:<7} {:>10} {:>7} {:>7} {:>8}", "D", "K", "C", "call", "ns", "x sum", "x loads", "map ns");
    for (d, k, c) in LISTS {
        let (list, map) = filled(d, k, c, c / 2);
        // SAFETY: w is a reference to a word of the list
        let load = |w: &u32| unsafe { std::ptr::read_volatile(w) };
        let loads = median(ROUNDS, || (), || _ = black_box(list.iter().fold(0u32, |sum, w| sum.wrapping_add(load(w)))));
        let sum = median(ROUNDS, || (), || _ = black_box(black_box(&list).iter().fold(0u32, |sum, w| sum.wrapping_add(*w))));
        let key = *map.keys().nth(map.len() / 2).expect("half full");
        let new = (key + 1..).find(|k| !map.contains_key(k)).expect("room");
        let row = |name: &str, ns: f64, map: Option<f64>| {
            let map = map.map_or(String::new(), |ns| format!("{ns:.0}"));
            println!("{d:>3} {k:>11} {c:>5}  {name:<7} {ns:>10.0} {:>7.2} {:>7.2} {map:>8}", ns / sum, ns / loads);
        };
        row("sum", sum, None);
        row("loads", loads, None);
        let fresh = RefCell::new((list.clone(), map.clone()));
        let reset = || *fresh.borrow_mut() = (list.clone(), map.clone());
        let ours = |call: &dyn Fn(&mut Vec<u32>)| median(ROUNDS, reset, || call(&mut fresh.borrow_mut().0));
        let theirs = |call: &dyn Fn(&mut Map)| median(ROUNDS, reset, || call(&mut fresh.borrow_mut().1));
        row("find", ours(&|l| _ = black_box(find(l, key))), Some(theirs(&|m| _ = black_box(m.get(&key)))));
        row("insert", ours(&|l| _ = black_box(insert(l, new, 1))), Some(theirs(&|m| _ = black_box(m.insert(new, 1)))));
        row("finish", ours(&|l| _ = black_box(finish(l, key))), None);
        row("take", ours(&|l| _ = black_box(take(l))), Some(theirs(&|m| _ = black_box(m.pop_first()))));
        row("sweep", ours(&|l| _ = black_box(sweep(l))), None);
    }
}

fn find_by_standing_keys() {
    println!("find on a list of D 8, K 4294967295, C 1024 by the keys that stand: ns, ns for each word");
    for keys in [0, 256, 512, 768, 1023] {
        let (list, _) = filled(8, u32::MAX, 1024, keys);
        let ns = median(ROUNDS, || (), || _ = black_box(find(&list, 7)));
        println!("{keys:>5} {ns:>10.0} {:>6.2}", ns / list.len() as f64);
    }
}

fn many_calls() {
    println!("many calls after one check, on half-full lists: ns for each");
    println!(
        "{:>3} {:>11} {:>5}  {:<7} {:>6} {:>8} {:>8} {:>8} {:>8} {:>8}",
        "D", "K", "C", "call", "calls", "alone", "batch", "alone/b", "map", "b/map"
    );
    for (d, k, c) in LISTS {
        let (list, map) = filled(d, k, c, c / 2);
        let live: Vec<u32> = map.keys().copied().collect();
        let count = CALLS.min(c / 2 - 1) as usize;
        let mut known = map.clone();
        let new: Vec<u32> = numbers(8, k).filter(|key| known.insert(*key, 0).is_none()).take(count).collect();
        let old: Vec<u32> = numbers(9, c / 2).map(|i| live[i as usize - 1]).take(count).collect();
        let fresh = RefCell::new((list.clone(), map.clone()));
        let reset = || *fresh.borrow_mut() = (list.clone(), map.clone());
        let ours = |rounds: usize, calls: &dyn Fn(&mut Vec<u32>)| median(rounds, reset, || calls(&mut fresh.borrow_mut().0));
        let theirs = |calls: &dyn Fn(&mut Map)| median(BATCH_ROUNDS, reset, || calls(&mut fresh.borrow_mut().1));
        let row = |name: &str, calls: usize, alone: f64, batch: f64, map: f64| {
            let [alone, batch, map] = [alone, batch, map].map(|ns| ns / calls as f64);
            print!("{d:>3} {k:>11} {c:>5}  {name:<7} {calls:>6} {alone:>8.0} {batch:>8.0} {:>8.1} {map:>8.0}", alone / batch);
            println!(" {:>8.1}", batch / map);
        };
        let batched = |keys: &[u32], call: fn(u32) -> Call| {
            let calls: Vec<Call> = keys.iter().map(|key| call(*key)).collect();
            let answers = RefCell::new(vec![Answered::NONE; calls.len()]);
            let ns = ours(BATCH_ROUNDS, &|l| assert!(batch(l, &calls, &mut answers.borrow_mut()).is_ok()));
            // the refusals of every kind of call are read alike
            assert!(answers.borrow().iter().all(|answer| answer.taken().is_ok()));
            ns
        };
        let alone = |keys: &[u32], call: fn(&mut [u32], u32)| ours(ALONE_ROUNDS, &|l| keys.iter().for_each(|key| call(l, *key)));
        let mapped = |keys: &[u32], call: fn(&mut Map, u32)| theirs(&|m| keys.iter().for_each(|key| call(m, *key)));
        row(
            "insert",
            count,
            alone(&new, |l, key| _ = black_box(insert(l, key, 1))),
            batched(&new, |key| Call::insert(key, 1)),
            mapped(&new, |m, key| _ = black_box(m.insert(key, 1))),
        );
        row(
            "find",
            count,
            alone(&old, |l, key| _ = black_box(find(l, key))),
            batched(&old, Call::find),
            mapped(&old, |m, key| _ = black_box(m.get(&key))),
        );
        row(
            "take",
            count,
            alone(&old, |l, _| _ = black_box(take(l))),
            batched(&old, |_| Call::take()),
            mapped(&old, |m, _| _ = black_box(m.pop_first())),
        );
        row(
            "drain",
            live.len(),
            ours(ALONE_ROUNDS, &|l| while black_box(take(l)).is_ok() {}),
            ours(BATCH_ROUNDS, &|l| assert!(drain(l, |taken| _ = black_box(taken)).is_ok())),
            theirs(&|m| while black_box(m.pop_first()).is_some() {}),
        );
    }
}

fn files() {
    println!("write and read of full lists, C 4096, beside a find, which is one check: ns");
    println!("{:>3} {:>11} {:>6} {:>10} {:>10} {:>10} {:>8} {:>8}", "D", "K", "bytes", "find", "write", "read", "w/find", "r/find");
    let (k, c) = (u32::MAX, 4096);
    for d in [2, 8, 16] {
        let (list, map) = filled(d, k, c, c - 1);
        let key = *map.keys().nth(map.len() / 2).expect("a full list");
        let mut file = vec![0; file_length(map.len())];
        let mut back = vec![0; list.len()];
        let find = median(ROUNDS, || (), || _ = black_box(find(&list, key)));
        let write = median(ROUNDS, || (), || assert!(black_box(write(&list, &mut file)).is_ok()));
        let read = median(ROUNDS, || (), || assert!(black_box(read(&file, &mut back)).is_ok()));
        print!("{d:>3} {k:>11} {:>6} {find:>10.0} {write:>10.0} {read:>10.0}", file.len());
        println!(" {:>8.2} {:>8.2}", write / find, read / find);
    }
}

/// The cells of the lists that are compared, and how often each call is timed in a row.
const CELLS: [(u32, usize); 3] = [(4_096, 50), (32_768, 15), (MOST_CELLS, 11)];
/// How often all the calls on a list are timed in their turn.
const TURNS: usize = 4;
/// The finds of a batch.
const FINDS: usize = 20_000;

/// What is timed on a list, by the least of its times, since a long call is the likelier to be disturbed: the words; the ns for each word of
/// adding them up, a find (one check), set up, sweep, write and read; the ns of an insert, a find and a take in a batch, the check taken
/// off; and the cells that a find looks at, the mean.
struct Figures {
    words: usize,
    of_a_word: [f64; 6],
    in_a_batch: [f64; 3],
    looked: f64,
}

/// The list after a batch that no call is refused of.
fn after(list: &[u32], calls: &[Call]) -> Vec<u32> {
    let (mut list, mut answers) = (list.to_vec(), vec![Answered::NONE; calls.len()]);
    assert_eq!(batch(&mut list, calls, &mut answers), Ok(calls.len()));
    assert!(answers.iter().all(|answer| answer.taken().is_ok()));
    list
}

/// Of a full list whose keys came in this order. Inserts fill it, takes take half of its keys, and a sweep frees those.
fn figures(d: u32, c: u32, keys: &[u32], rounds: usize) -> Figures {
    let mut empty = vec![0; words_needed(d, c)];
    set_up(d, u32::MAX, c, &mut empty).expect("settings in range");
    let inserts: Vec<Call> = keys.iter().map(|key| Call::insert(*key, *key)).collect();
    let finds: Vec<Call> = numbers(9, keys.len() as u32).map(|i| Call::find(keys[i as usize - 1])).take(FINDS).collect();
    let takes = vec![Call::take(); keys.len() / 2];
    let list = after(&empty, &inserts);
    let half = after(&list, &takes);
    let absent = (1..).find(|key| !keys.contains(key)).expect("not every key stands");
    let mut file = vec![0; file_length(keys.len())];
    let mut answers = vec![Answered::NONE; FINDS.max(keys.len())];
    let mut looked = 0;

    // a call on words that are made those of a list before
    let words = RefCell::new(list.clone());
    let least = |rounds: usize, from: &[u32], call: &mut dyn FnMut(&mut [u32])| {
        times(rounds, || words.borrow_mut().copy_from_slice(from), || call(&mut words.borrow_mut()))[0]
    };
    let least_of_many = |call: &mut dyn FnMut(&mut [u32])| times(rounds, || (), || call(&mut words.borrow_mut()))[0];
    let few = rounds.div_ceil(20);
    let mut leasts = [f64::INFINITY; 11];
    for _ in 0..TURNS {
        let mut batched = |rounds: usize, from: &[u32], calls: &[Call]| {
            least(rounds, from, &mut |words| assert_eq!(batch(words, calls, &mut answers), Ok(calls.len())))
        };
        let batches = [
            batched(rounds, &empty, &[]),
            batched(few, &empty, &inserts),
            batched(rounds, &list, &[]),
            batched(few, &list, &takes),
            batched(rounds, &list, &finds),
        ];
        looked = answers[..FINDS].iter().map(|answer| answer.found().expect("a live key").looked).sum();
        let calls = [
            // the words are the list's now
            least_of_many(&mut |words| _ = black_box(black_box(words).iter().fold(0u32, |sum, w| sum.wrapping_add(*w)))),
            least_of_many(&mut |words| assert!(matches!(find(words, absent), Err(Refusal::NotThere { .. })))),
            least_of_many(&mut |words| assert_eq!(write(words, &mut file), Ok(file_length(keys.len())))),
            least_of_many(&mut |words| assert_eq!(set_up(d, u32::MAX, c, words), Ok(()))),
            least_of_many(&mut |words| assert_eq!(read(&file, words), Ok(keys.len()))),
            least(rounds, &half, &mut |words| assert!(sweep(words).is_ok())),
        ];
        let turn = batches.into_iter().chain(calls);
        leasts.iter_mut().zip(turn).for_each(|(least, ns)| *least = least.min(ns));
    }
    let [no_inserts, all_inserts, none, all_takes, all_finds, sum, check, write, set_up, read, sweep] = leasts;
    Figures {
        words: list.len(),
        of_a_word: [sum, check, set_up, sweep, write, read].map(|ns| ns / list.len() as f64),
        in_a_batch: [
            (all_inserts - no_inserts) / inserts.len() as f64,
            (all_finds - none) / finds.len() as f64,
            (all_takes - none) / takes.len() as f64,
        ],
        looked: f64::from(looked) / FINDS as f64,
    }
}

fn by_the_cells() {
    println!("by the cells of a list, full, K 4294967295: ns for each word of its buffer (check is a find; before a sweep half is taken);");
    println!("ns of an insert, find and take in a batch, the check taken off; cells that a find looks at; check and find, times C 4096");
    print!("{:>3} {:>7} {:<10} {:>8} {:>5} {:>6} {:>6} {:>6}", "D", "C", "keys came", "words", "sum", "check", "set up", "sweep");
    println!(" {:>6} {:>6} {:>7} {:>6} {:>6} {:>6} {:>8} {:>8}", "write", "read", "insert", "find", "take", "looked", "check x", "find x");
    for d in [8, 16] {
        for came in ["at random", "ascending"] {
            let mut on_fewest = None;
            for (c, rounds) in CELLS {
                let mut seen = BTreeSet::new();
                let mut keys: Vec<u32> = numbers(7, u32::MAX).filter(|key| seen.insert(*key)).take(c as usize - 1).collect();
                if came == "ascending" {
                    keys.sort_unstable();
                }
                let Figures { words, of_a_word, in_a_batch, looked } = figures(d, c, &keys, rounds);
                let [sum, check, set_up, sweep, write, read] = of_a_word;
                let [insert, find, take] = in_a_batch;
                let [check_on_fewest, find_on_fewest] = *on_fewest.get_or_insert([check, find]);
                print!("{d:>3} {c:>7} {came:<10} {words:>8} {sum:>5.2} {check:>6.2} {set_up:>6.2} {sweep:>6.2} {write:>6.2} {read:>6.2}");
                print!(" {insert:>7.0} {find:>6.0} {take:>6.0} {looked:>6.1}");
                println!(" {:>8.2} {:>8.2}", check / check_on_fewest, find / find_on_fewest);
            }
        }
    }
}

/// A list with its class record.
type Pair = (Vec<u32>, [u32; CLASS_WORDS]);

/// The lower quartiles of a call on the list alone and of the same with its class record, made in turns.
fn in_turns(rounds: usize, pair: &Pair, mut alone: impl FnMut(&mut [u32]), mut counted: impl FnMut(&mut [u32], &mut [u32])) -> [f64; 2] {
    let (mut list, mut classes) = pair.clone();
    let mut times = [vec![], vec![]];
    for round in 0..2 * rounds {
        list.copy_from_slice(&pair.0);
        classes.copy_from_slice(&pair.1);
        let start = Instant::now();
        if round % 2 == 0 {
            alone(&mut list);
        } else {
            counted(&mut list, &mut classes);
        }
        times[round % 2].push(start.elapsed().as_nanos() as f64);
    }
    times.map(|mut times| {
        times.sort_by(f64::total_cmp);
        times[rounds / 4]
    })
}

/// A list with so many random keys, and its record.
fn filled_pair(d: u32, c: u32, keys: &[u32]) -> Pair {
    let mut pair = (vec![0; words_needed(d, c)], [0; CLASS_WORDS]);
    counted::set_up(d, u32::MAX, c, &mut pair.0, &mut pair.1).expect("settings in range");
    let calls: Vec<Call> = keys.iter().map(|key| Call::insert(*key, *key)).collect();
    let mut answers = vec![Answered::NONE; calls.len()];
    assert_eq!(counted::batch(&mut pair.0, &mut pair.1, &calls, &mut answers), Ok(calls.len()));
    assert!(answers.iter().all(|answer| answer.inserted().is_ok()));
    pair
}

fn with_a_record() {
    println!("calls with a class record beside the same on the list alone, K 4294967295: ns, made in turns, lower quartiles");
    println!("{:>3} {:>7} {:>6}  {:<22} {:>10} {:>10} {:>6}", "D", "C", "keys", "call", "alone", "counted", "x");
    let c = 4_096;
    for d in [8, 16] {
        let mut seen = BTreeSet::new();
        let all: Vec<u32> = numbers(7, u32::MAX).filter(|key| seen.insert(*key)).take(2 * c as usize).collect();
        // half full and full; an insert into a full list takes its last cell, and a batch of inserts its last cells
        for keys in [c as usize / 2, c as usize - 1] {
            let room = |count: usize| keys.min(c as usize - 1 - count);
            let row = |call: &str, keys: usize, [alone, counted]: [f64; 2]| {
                println!("{d:>3} {c:>7} {keys:>6}  {call:<22} {alone:>10.0} {counted:>10.0} {:>6.2}", counted / alone);
            };
            let pair = filled_pair(d, c, &all[..keys]);
            let (found, new) = (all[keys / 2], all[keys]);
            row(
                "find",
                keys,
                in_turns(ROUNDS, &pair, |l| assert!(find(l, found).is_ok()), |l, r| assert!(counted::find(l, r, found).is_ok())),
            );
            row("take", keys, in_turns(ROUNDS, &pair, |l| assert!(take(l).is_ok()), |l, r| assert!(counted::take(l, r).is_ok())));
            let less = filled_pair(d, c, &all[..room(1)]);
            row(
                "insert",
                room(1),
                in_turns(ROUNDS, &less, |l| assert!(insert(l, new, 1).is_ok()), |l, r| assert!(counted::insert(l, r, new, 1).is_ok())),
            );
            let less = filled_pair(d, c, &all[..room(CALLS as usize)]);
            let finds = all[..keys].iter().cycle().step_by(7).take(CALLS as usize).map(|key| Call::find(*key)).collect();
            let inserts = all[keys..].iter().take(CALLS as usize).map(|key| Call::insert(*key, 1)).collect();
            let batches: [(&str, &Pair, usize, Vec<Call>); 3] = [
                ("batch of 1000 finds", &pair, keys, finds),
                ("batch of 1000 inserts", &less, room(CALLS as usize), inserts),
                ("batch of 1000 takes", &pair, keys, vec![Call::take(); CALLS as usize]),
            ];
            for (name, pair, keys, calls) in batches {
                let answers = RefCell::new(vec![Answered::NONE; calls.len()]);
                let times = in_turns(
                    ROUNDS,
                    pair,
                    |l| assert!(batch(l, &calls, &mut answers.borrow_mut()).is_ok()),
                    |l, r| assert!(counted::batch(l, r, &calls, &mut answers.borrow_mut()).is_ok()),
                );
                assert!(answers.borrow().iter().all(|answer| answer.taken().is_ok()));
                row(name, keys, times);
            }
        }
    }
    println!("the question about one class, on the record of a half-full list, D 8: ns for each");
    for c in [512, 4_096, MOST_CELLS] {
        let mut seen = BTreeSet::new();
        let keys: Vec<u32> = numbers(7, u32::MAX).filter(|key| seen.insert(*key)).take(c as usize / 2).collect();
        let (_, classes) = filled_pair(8, c, &keys);
        let ask = |i: u32| assert!(black_box(counted::class(black_box(&classes), black_box(i % 16))).is_ok());
        let ns = times(ROUNDS, || (), || (0..CALLS).for_each(ask))[ROUNDS / 4];
        println!("{:>11} {:>10.1}", c, ns / f64::from(CALLS));
    }
}

/// The words of a row in which these keys are live, and the first of them are taken: docs/REFERENCE.md, *The plain row*. As many inserts would
/// each move the keys above.
fn row_of(d: u32, c: u32, mut keys: Vec<u32>, taken: usize) -> Vec<u32> {
    keys.sort_unstable();
    let mut words = vec![0; row_words(c)];
    let position = if taken == 0 { 0 } else { keys[taken - 1] };
    words[..5].copy_from_slice(&[d, u32::MAX, c, keys.len() as u32, position]);
    for (i, (key, place)) in keys.iter().zip(words[5..].chunks_exact_mut(3)).enumerate() {
        place.copy_from_slice(&if i < taken { [*key, 0, 2] } else { [*key, *key, 1] });
    }
    words
}

/// The lower quartiles of a call on the list and on the row, made in turns.
fn on_both(rounds: usize, [list, row]: [&[u32]; 2], on_list: impl Fn(&mut [u32]), on_row: impl Fn(&mut [u32])) -> [f64; 2] {
    let (mut copy_of_list, mut copy_of_row) = (list.to_vec(), row.to_vec());
    let mut times = [vec![], vec![]];
    for _ in 0..rounds {
        copy_of_list.copy_from_slice(list);
        let start = Instant::now();
        on_list(&mut copy_of_list);
        times[0].push(start.elapsed().as_nanos() as f64);
        copy_of_row.copy_from_slice(row);
        let start = Instant::now();
        on_row(&mut copy_of_row);
        times[1].push(start.elapsed().as_nanos() as f64);
    }
    times.map(|mut times| {
        times.sort_by(f64::total_cmp);
        times[rounds / 4]
    })
}

fn on_rows() {
    println!("calls on a plain row beside the same on a list, K 4294967295, random keys: ns, made in turns, lower quartiles");
    println!("{:>3} {:>7} {:>7} {:>8} {:>8}  {:<8} {:>10} {:>10} {:>6}", "D", "C", "keys", "list", "row", "call", "list", "row", "x");
    for (d, c, rounds) in [(8, 512, ROUNDS), (8, 4_096, ROUNDS), (16, 4_096, ROUNDS), (8, MOST_CELLS, 21)] {
        let mut seen = BTreeSet::new();
        let all: Vec<u32> = numbers(7, u32::MAX).filter(|key| seen.insert(*key)).take(c as usize).collect();
        let mut empty = vec![0; words_needed(d, c)];
        set_up(d, u32::MAX, c, &mut empty).expect("settings in range");
        // an insert into a full list takes its last cell, so there is one key less before it
        for keys in [c as usize / 2, c as usize - 2] {
            let inserts: Vec<Call> = all[..keys].iter().map(|key| Call::insert(*key, *key)).collect();
            let list = after(&empty, &inserts);
            let list_taken = after(&list, &vec![Call::take(); keys / 2]);
            let (row, row_taken) = (row_of(d, c, all[..keys].to_vec(), 0), row_of(d, c, all[..keys].to_vec(), keys / 2));
            let (live, taken) = ([&list[..], &row], [&list_taken[..], &row_taken]);
            let (found, new) = (all[keys / 2], all[keys]);
            let figures = [
                ("set up", on_both(rounds, live, |l| assert!(set_up(d, 9, c, l).is_ok()), |r| assert!(row::set_up(d, 9, c, r).is_ok()))),
                ("find", on_both(rounds, live, |l| assert!(find(l, found).is_ok()), |r| assert!(row::find(r, found).is_ok()))),
                ("insert", on_both(rounds, live, |l| assert!(insert(l, new, 1).is_ok()), |r| assert!(row::insert(r, new, 1).is_ok()))),
                ("take", on_both(rounds, taken, |l| assert!(take(l).is_ok()), |r| assert!(row::take(r).is_ok()))),
                ("sweep", on_both(rounds, taken, |l| assert!(sweep(l).is_ok()), |r| assert!(row::sweep(r).is_ok()))),
            ];
            for (call, [on_list, on_row]) in figures {
                let (l, r) = (list.len(), row.len());
                println!("{d:>3} {c:>7} {keys:>7} {l:>8} {r:>8}  {call:<8} {on_list:>10.0} {on_row:>10.0} {:>6.2}", on_row / on_list);
            }
        }
    }
}

fn main() {
    let wanted: Vec<String> = env::args().skip(1).collect();
    let tables: [(&str, fn()); 7] = [
        ("operations", each_operation),
        ("keys", find_by_standing_keys),
        ("batches", many_calls),
        ("files", files),
        ("cells", by_the_cells),
        ("classes", with_a_record),
        ("rows", on_rows),
    ];
    for (name, print_table) in tables {
        if wanted.is_empty() || wanted.iter().any(|wanted| wanted == name) {
            print_table();
            println!();
        }
    }
}
