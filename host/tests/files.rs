//! Files through the Rust functions: the bytes of one, written and read back, room too short, words of another length, files cut, extended,
//! torn and altered, and a list kept in a file of the system as `examples/restart.rs` does it.

mod common;
#[allow(dead_code)]
#[path = "../examples/restart.rs"]
mod restart;

use common::{entry_key, fresh, Dice};
use mdlist_host::*;
use std::collections::BTreeMap;
use std::fs;
use std::path::{Path, PathBuf};

/// A list with D = 2, K = 15 and C = 8 in which 6 and 9 wait and 5 is dead.
fn two_wait() -> Vec<u32> {
    let mut list = fresh(2, 15, 8);
    for (key, value) in [(6, 60), (5, 50), (9, u32::MAX)] {
        assert!(insert(&mut list, key, value).is_ok());
    }
    assert_eq!(take(&mut list).map(|t| t.key), Ok(5));
    list
}

#[rustfmt::skip]
const FILE_OF_TWO: [u8; 49] = [
    2,
    1, 0, 0, 0, 19, 0, 0, 0, 12,
    2, 0, 0, 0, 31, 0, 0, 0, 18,
    0, 0, 0, 2, 0, 0, 0, 15, 0, 0, 0, 8,
    0, 2,
    0, 0, 0, 6, 0, 0, 0, 60,
    0, 0, 0, 9, 255, 255, 255, 255,
];

/// A file by docs/REFERENCE.md, *Files*, which may break *Files 5*.
fn file_of([d, k, c]: [u32; 3], pairs: &[(u32, u32)]) -> Vec<u8> {
    let long = 2 + 8 * pairs.len() as u32;
    let mut file = vec![2, 1];
    file.extend([19, 12].map(u32::to_be_bytes).concat());
    file.push(2);
    file.extend([31, long, d, k, c].map(u32::to_be_bytes).concat());
    file.extend((pairs.len() as u16).to_be_bytes());
    file.extend(pairs.iter().flat_map(|(key, value)| [key.to_be_bytes(), value.to_be_bytes()].concat()));
    file
}

/// The file of a list, written into more bytes than it has; those past it are kept.
fn written(list: &[u32]) -> Vec<u8> {
    // word 2 is C, so there are 8 bytes more than for any file of the list
    let mut file = vec![165; file_length(list[2] as usize)];
    let length = write(list, &mut file).unwrap();
    assert!(file[length..].iter().all(|byte| *byte == 165));
    file.truncate(length);
    file
}

/// The list that reading gives, by set up, inserts in ascending order, and finishes.
fn by_inserts([d, k, c]: [u32; 3], pairs: &[(u32, u32)]) -> Vec<u32> {
    let mut list = fresh(d, k, c);
    for (key, value) in pairs {
        assert!(insert(&mut list, *key, *value).is_ok());
    }
    for (key, _) in pairs {
        assert_eq!(finish(&mut list, *key), Ok(0), "ascending keys leave nothing owed");
    }
    list
}

/// Reads a file that is refused, into words of the right length: they are left as they were.
fn refused(file: &[u8], refusal: Refusal) {
    for mut words in [vec![7; words_needed(2, 8)], two_wait()] {
        let before = words.clone();
        assert_eq!(read(file, &mut words), Err(refusal), "{file:?}");
        assert_eq!(words, before);
    }
}

#[test]
fn bytes_of_a_file() {
    assert_eq!(written(&two_wait()), FILE_OF_TWO);
    assert_eq!(file_of([2, 15, 8], &[(6, 60), (9, u32::MAX)]), FILE_OF_TWO);
    assert_eq!(written(&fresh(16, u32::MAX, 3)), file_of([16, u32::MAX, 3], &[]));
}

#[test]
fn shortest_and_longest_file() {
    assert_eq!(written(&fresh(2, 15, 8)).len(), 33);
    for d in [2, 8, 16] {
        let pairs: Vec<(u32, u32)> = (1..4_096).map(|i| (1_048_575 * i, i)).collect();
        let settings = [d, u32::MAX, 4_096];
        let file = file_of(settings, &pairs);
        assert_eq!(file.len(), 32_793);
        let mut list = vec![7; words_needed(d, 4_096)];
        assert_eq!(read(&file, &mut list), Ok(4_095));
        assert_eq!(written(&list), file);
        assert_eq!(take(&mut list), Ok(Taken { key: 1_048_575, value: 1, passed: 1 }));
        let before = list.clone();
        let one_more = file_of(settings, &[&pairs[..], &[(u32::MAX, 0)]].concat());
        assert_eq!(read(&one_more, &mut list), Err(Refusal::BadFile));
        assert_eq!(list, before);
    }
}

#[test]
fn write_then_read() {
    let mut dice = Dice(12);
    for (d, k, c) in [(2, 15, 8), (3, 1000, 40), (8, u32::MAX, 64), (15, u32::MAX, 20), (16, u32::MAX, 30), (2, 1, 3)] {
        let (mut list, mut map) = (fresh(d, k, c), BTreeMap::new());
        for _ in 0..150 {
            let key = 1 + dice.below(u64::from(k.min(60))) as u32;
            match dice.below(8) {
                0..=4 if insert(&mut list, key, 7 * key).is_ok() => _ = map.insert(key, 7 * key),
                5 => assert_eq!(take(&mut list).ok().map(|t| (t.key, t.value)), map.pop_first()),
                6 => _ = finish(&mut list, key),
                7 => assert!(sweep(&mut list).is_ok()),
                _ => (),
            }
            let pairs: Vec<(u32, u32)> = map.clone().into_iter().collect();
            let before = list.clone();
            let file = written(&list);
            assert_eq!(list, before);
            assert_eq!(file.len(), file_length(pairs.len()));
            assert_eq!(file, file_of([d, k, c], &pairs));
            let mut back = vec![7; list.len()];
            assert_eq!(read(&file, &mut back), Ok(pairs.len()));
            assert_eq!(written(&back), file);
            assert_eq!(back, by_inserts([d, k, c], &pairs));
            // keys and values are the same, passed need not be
            let mut taken = list.clone();
            for pair in &pairs {
                assert_eq!(take(&mut taken).map(|t| (t.key, t.value)), Ok(*pair));
                assert_eq!(take(&mut back), Ok(Taken { key: pair.0, value: pair.1, passed: 1 }));
            }
            assert_eq!(take(&mut back), Err(Refusal::NothingLive { above: 0 }));
        }
    }
}

#[test]
fn room_too_short() {
    let list = two_wait();
    for length in 0..49 {
        let mut room = vec![7; length];
        assert_eq!(write(&list, &mut room), Err(Refusal::NoRoom));
        assert!(room.iter().all(|byte| *byte == 7));
    }
    let mut room = FILE_OF_TWO;
    assert_eq!(write(&list, &mut room[..49]), Ok(49));
    assert_eq!(write(&fresh(2, 15, 8), &mut []), Err(Refusal::NoRoom));
}

/// Words that are no list are refused by 3, with room and without.
#[test]
fn write_of_no_list() {
    let list = two_wait();
    let mut damaged = list.clone();
    damaged[3] = 5;
    for words in [&[][..], &list[1..], &list[..70], &[&list[..], &[0]].concat(), &damaged, &[7; 71]] {
        for length in [0, 48, 49, 100] {
            let mut room = vec![7; length];
            assert_eq!(write(words, &mut room), Err(Refusal::NotAList));
            assert!(room.iter().all(|byte| *byte == 7));
        }
    }
}

/// 11 comes before 2, and words that are no list are as good as others.
#[test]
fn read_into_another_length() {
    for length in [0, 1, 5, 70, 72, 200] {
        let mut words = vec![7; length];
        assert_eq!(read(&FILE_OF_TWO, &mut words), Err(Refusal::WrongLength));
        assert_eq!(read(&FILE_OF_TWO[..48], &mut words), Err(Refusal::BadFile));
        assert!(words.iter().all(|word| *word == 7));
    }
    let mut other = fresh(3, 15, 8);
    let before = other.clone();
    assert_eq!(read(&FILE_OF_TWO, &mut other), Err(Refusal::WrongLength));
    assert_eq!(other, before);
    // as many words as those of D = 2 and C = 8
    let mut same = fresh(3, 100, 7);
    assert_eq!(read(&FILE_OF_TWO, &mut same), Ok(2));
    assert_eq!(same[..3], [2, 15, 8]);
    assert_eq!(written(&same), FILE_OF_TWO);
}

#[test]
fn cut_or_extended() {
    for length in 0..49 {
        refused(&FILE_OF_TWO[..length], Refusal::BadFile);
        refused(&FILE_OF_TWO[49 - length..], Refusal::BadFile);
    }
    for byte in [0, 1, 2, 255] {
        refused(&[&FILE_OF_TWO[..], &[byte]].concat(), Refusal::BadFile);
        refused(&[&[byte], &FILE_OF_TWO[..]].concat(), Refusal::BadFile);
    }
}

/// Every other byte in every place: before the settings none is accepted; later a file that says something else may be, and then writing
/// gives those very bytes.
#[test]
fn every_altered_byte() {
    let mut accepted = 0;
    for (index, byte) in (0..49).flat_map(|index| (0..=255).map(move |byte| (index, byte))) {
        let mut file = FILE_OF_TWO;
        file[index] = byte;
        if file == FILE_OF_TWO {
            continue;
        }
        let [d, c] = [19, 27].map(|at| u32::from_be_bytes([file[at], file[at + 1], file[at + 2], file[at + 3]]));
        let in_range = (2..=16).contains(&d) && (3..=MOST_CELLS).contains(&c);
        let mut list = vec![7; if in_range { words_needed(d, c) } else { 71 }];
        match read(&file, &mut list) {
            Ok(keys) => {
                assert!(index >= 19 && keys == 2, "{index} {byte}");
                let mut back = [165; 50];
                assert_eq!(write(&list, &mut back), Ok(49));
                assert_eq!(back[..49], file);
                accepted += 1;
            }
            Err(refusal) => {
                assert_eq!(refusal, Refusal::BadFile, "{index} {byte}");
                assert!(list.iter().all(|word| *word == 7));
            }
        }
    }
    // 255 for each byte of the two values and the three higher ones of K; of D 14, of K's last 246, of C 3, 255 and 252, of the keys 7 and 8
    assert_eq!(accepted, 11 * 255 + 14 + 246 + 3 + 255 + 252 + 7 + 8);
}

#[test]
fn settings_and_keys_out_of_range() {
    for settings in [[0, 15, 8], [1, 15, 8], [17, 15, 8], [2, 0, 8], [2, 15, 2], [2, 15, MOST_CELLS + 1], [2, 15, 0], [u32::MAX; 3]] {
        refused(&file_of(settings, &[]), Refusal::BadFile);
        refused(&file_of(settings, &[(1, 1)]), Refusal::BadFile);
    }
    for keys in [&[0][..], &[16], &[0, 1], &[1, 1], &[2, 1], &[1, 3, 2], &[15, 16], &[1, 2, 3, 4, 5, 6, 7, 8], &[u32::MAX]] {
        let pairs: Vec<(u32, u32)> = keys.iter().map(|key| (*key, 1)).collect();
        refused(&file_of([2, 15, 8], &pairs), Refusal::BadFile);
    }
    for keys in [&[][..], &[1], &[15], &[1, 15], &[1, 2, 3, 4, 5, 6, 7], &[9, 10, 11, 12, 13, 14, 15]] {
        let pairs: Vec<(u32, u32)> = keys.iter().map(|key| (*key, 1)).collect();
        let mut list = vec![7; 71];
        assert_eq!(read(&file_of([2, 15, 8], &pairs), &mut list), Ok(keys.len()));
        assert_eq!(list, by_inserts([2, 15, 8], &pairs));
    }
}

/// The methods do what the functions do.
#[test]
fn list_methods_beside_the_functions() {
    let mut words = two_wait();
    let mut file = [0; 49];
    assert_eq!(List::new(&mut words).write(&mut file), Ok(49));
    assert_eq!(file, FILE_OF_TWO);
    assert_eq!(List::new(&mut words).write(&mut file[1..]), Err(Refusal::NoRoom));
    let (mut read_words, mut other) = (vec![7; 71], vec![7; 71]);
    assert_eq!(read(&file, &mut other), Ok(2));
    assert_eq!(List::read(&file, &mut read_words).unwrap().words(), other);
    assert_eq!(List::read(&file[1..], &mut read_words).err(), Some(Refusal::BadFile));
    assert_eq!(List::read(&file, &mut read_words[1..]).err(), Some(Refusal::WrongLength));
    assert_eq!(read_words, other);
}

/// A folder for one test's files, emptied.
fn folder(name: &str) -> PathBuf {
    let folder = Path::new(env!("CARGO_TARGET_TMPDIR")).join(name);
    _ = fs::remove_dir_all(&folder);
    fs::create_dir_all(&folder).unwrap();
    folder
}

fn new_words() -> Vec<u32> {
    vec![0; words_needed(restart::D, restart::C)]
}

/// The pairs that are taken from a list that was loaded.
fn loaded(path: &Path) -> Vec<(u32, u32)> {
    let (mut words, mut pairs) = (new_words(), Vec::new());
    restart::load(path, &mut words).unwrap().drain(|taken| pairs.push((taken.key, taken.value))).unwrap();
    pairs
}

#[test]
fn kept_over_a_restart() {
    let path = folder("kept").join("waiting");
    assert_eq!(loaded(&path), []);
    let keys = [entry_key(1, 117, 0), entry_key(0, 117, 1), entry_key(0, 117, 0), entry_key(15, 1, 0)];
    for (key, shift) in keys.into_iter().zip(1..) {
        let mut words = new_words();
        let mut list = restart::load(&path, &mut words).unwrap();
        list.insert(key, shift).unwrap();
        restart::save(&list, &path).unwrap();
        assert!(!restart::second_name(&path).exists());
    }
    assert_eq!(loaded(&path), [(keys[2], 3), (keys[1], 2), (keys[0], 1), (keys[3], 4)]);
    let mut words = new_words();
    let mut list = restart::load(&path, &mut words).unwrap();
    assert_eq!(list.take().unwrap().key, keys[2]);
    restart::save(&list, &path).unwrap();
    assert_eq!(loaded(&path), [(keys[1], 2), (keys[0], 1), (keys[3], 4)]);
}

/// The machine stops while the file of the second name is written: as many bytes of it are there as can be. The old file is still there, and
/// what there is of the new one is refused by 11. The next save does as if nothing had been.
#[test]
fn torn_file_beside_the_old_one() {
    let path = folder("torn").join("waiting");
    let second = restart::second_name(&path);
    let mut words = new_words();
    let mut list = List::set_up(restart::D, restart::K, restart::C, &mut words).unwrap();
    list.insert(6, 60).unwrap();
    restart::save(&list, &path).unwrap();
    let old = fs::read(&path).unwrap();
    list.insert(5, 50).unwrap();
    let new = written(list.words());
    for cut in 0..new.len() {
        // what is not on the disk yet is missing, or reads as 0
        for torn in [new[..cut].to_vec(), [&new[..cut], &vec![0; new.len() - cut]].concat()] {
            if torn == new {
                continue;
            }
            fs::write(&second, &torn).unwrap();
            assert_eq!(fs::read(&path).unwrap(), old);
            assert_eq!(loaded(&path), [(6, 60)]);
            // with 0 in place of the last value's bytes it is a file, of another list
            if cut < new.len() - 4 || torn.len() < new.len() {
                let mut other = new_words();
                assert_eq!(List::read(&torn, &mut other).err(), Some(Refusal::BadFile));
                assert_eq!(restart::load(&second, &mut other).unwrap_err().to_string(), Refusal::BadFile.to_string());
                assert!(other.iter().all(|word| *word == 0));
            }
        }
    }
    restart::save(&list, &path).unwrap();
    assert_eq!(fs::read(&path).unwrap(), new);
    assert_eq!(loaded(&path), [(5, 50), (6, 60)]);
    assert!(!second.exists());
}

/// A file that was cut by somebody else is refused, and is not overwritten by a list that was not read.
#[test]
fn cut_file_is_left() {
    let path = folder("cut").join("waiting");
    let cut = &FILE_OF_TWO[..40];
    fs::write(&path, cut).unwrap();
    let mut words = new_words();
    assert_eq!(restart::load(&path, &mut words).unwrap_err().to_string(), Refusal::BadFile.to_string());
    // words that are no list are not saved
    assert!(restart::save(&List::new(&mut words), &path).is_err());
    assert_eq!(fs::read(&path).unwrap(), cut);
    // a whole file, of a list with other settings
    fs::write(&path, FILE_OF_TWO).unwrap();
    assert_eq!(restart::load(&path, &mut words).unwrap_err().to_string(), Refusal::WrongLength.to_string());
}
