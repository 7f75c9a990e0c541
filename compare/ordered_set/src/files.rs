//! What waits in a list, kept in a file: the ninth operation, write, and the tenth, read. Writing
//! lays the bodies and works the table of contents out from their lengths; reading goes by the
//! table of contents from body to body.

use crate::model::{Mark, Model, Standing};
use crate::operations::{
    leave, Answer, FILE_BREAKS_RULES, LENGTH_NOT_EXACT, NOT_A_LIST, NO_ROOM_FOR_FILE,
};
use crate::reading::list;
use crate::settings::Settings;
use std::collections::BTreeMap;

/// Files 2: the settings body and the entries body.
const BODIES: usize = 2;

/// Files 2: the number of bodies, and a tag, an offset and a length for each.
const TABLE_LENGTH: usize = 1 + BODIES * 9;

/// Files 2: the tags of the bodies. Which of the two an entries body has, and how its count is
/// written, is decided by the number of keys.
const SETTINGS_TAG: u8 = 1;
const FEW_TAG: u8 = 2;
const MANY_TAG: u8 = 3;

/// What a file keeps: the settings, and each live key with its value.
#[derive(Debug, PartialEq)]
pub struct Kept {
    pub settings: Settings,
    pub waiting: BTreeMap<u32, u32>,
}

/// The operations 9. What is written has to say the same when it is read.
pub fn write(words: &[u32], bytes: &mut [u8]) -> Answer {
    let Some(model) = list(words) else {
        return Answer::refused(NOT_A_LIST);
    };
    let kept = Kept::of(&model);
    let file = kept.file();
    assert!(Kept::in_file(&file).as_ref() == Some(&kept), "{kept:?} is not read out of {file:?}");
    let Some(room) = bytes.get_mut(..file.len()) else {
        return Answer::refused(NO_ROOM_FOR_FILE);
    };
    room.copy_from_slice(&file);
    Answer::done(0, 0, file.len())
}

/// The operations 10. The old words are never looked at. An accepted file has to be the one that
/// writing gives.
pub fn read(bytes: &[u8], words: &mut [u32]) -> Answer {
    let Some(kept) = Kept::in_file(bytes) else {
        return Answer::refused(FILE_BREAKS_RULES);
    };
    assert!(kept.file() == bytes, "{kept:?} was read out of {bytes:?} and is written otherwise");
    if words.len() != kept.settings.length() {
        return Answer::refused(LENGTH_NOT_EXACT);
    }
    let keys = kept.waiting.len();
    leave(&kept.settled(), words, &"a read");
    Answer::done(0, 0, keys)
}

impl Kept {
    pub fn of(model: &Model) -> Kept {
        let live = model.standing.iter().filter(|(_, at)| at.mark == Mark::Live);
        Kept {
            settings: model.settings.clone(),
            waiting: live.map(|(&key, at)| (key, at.value)).collect(),
        }
    }

    /// The operations 10: the keys in the cells from 1 on, live and owing nothing. Nothing was
    /// taken, so the position is the head.
    fn settled(self) -> Model {
        let mut model = Model::fresh(self.settings);
        for (key, value) in self.waiting {
            let cell = model.free.pop().expect("a file has fewer keys than its list has cells");
            let at = Standing { cell, value, mark: Mark::Live, owes: false };
            model.standing.insert(key, at);
        }
        model
    }

    /// Files 2.
    pub fn file(&self) -> Vec<u8> {
        let bodies = [self.settings_body(), self.entries_body()];
        let mut file = vec![BODIES as u8];
        let mut offset = TABLE_LENGTH;
        for (tag, body) in &bodies {
            file.push(*tag);
            file.extend((offset as u32).to_be_bytes());
            file.extend((body.len() as u32).to_be_bytes());
            offset += body.len();
        }
        bodies.iter().for_each(|(_, body)| file.extend(body));
        file
    }

    /// Files 3.
    fn settings_body(&self) -> (u8, Vec<u8>) {
        let Settings { dimensions, largest_key, cells, .. } = self.settings;
        let numbers = [dimensions as u32, largest_key, cells as u32];
        (SETTINGS_TAG, numbers.map(u32::to_be_bytes).concat())
    }

    /// Files 4.
    fn entries_body(&self) -> (u8, Vec<u8>) {
        let many = self.waiting.len();
        let (tag, mut body) = match u16::try_from(many) {
            Ok(few) => (FEW_TAG, few.to_be_bytes().to_vec()),
            Err(_) => (MANY_TAG, (many as u32).to_be_bytes().to_vec()),
        };
        for (key, value) in &self.waiting {
            body.extend(key.to_be_bytes());
            body.extend(value.to_be_bytes());
        }
        (tag, body)
    }

    /// Files 5: None where the bytes are no file.
    pub fn in_file(bytes: &[u8]) -> Option<Kept> {
        let [(first, settings), (second, entries)] = bodies(bytes)?;
        if first != SETTINGS_TAG {
            return None;
        }
        let settings = read_settings(settings)?;
        let waiting = read_entries(second, entries, &settings)?;
        Some(Kept { settings, waiting })
    }
}

/// The bodies with their tags. Each begins where what is before it ends, and the last one ends
/// with the file.
fn bodies(bytes: &[u8]) -> Option<[(u8, &[u8]); BODIES]> {
    let (table, mut after) = bytes.split_at_checked(TABLE_LENGTH)?;
    let mut table = Rest(table);
    let mut bodies = [(0, after); BODIES];
    if table.byte()? as usize != bodies.len() {
        return None;
    }
    for (tag, body) in &mut bodies {
        let begins = bytes.len() - after.len();
        *tag = table.byte()?;
        if table.word()? as usize != begins {
            return None;
        }
        (*body, after) = after.split_at_checked(table.word()? as usize)?;
    }
    after.is_empty().then_some(bodies)
}

fn read_settings(body: &[u8]) -> Option<Settings> {
    let mut rest = Rest(body);
    let settings = Settings::new(rest.word()?, rest.word()?, rest.word()?)?;
    rest.0.is_empty().then_some(settings)
}

/// A key has to be in range, and to stand above all before it.
fn read_entries(tag: u8, body: &[u8], settings: &Settings) -> Option<BTreeMap<u32, u32>> {
    let mut rest = Rest(body);
    let many = read_count(tag, &mut rest)?;
    let mut waiting = BTreeMap::new();
    while !rest.0.is_empty() {
        let (key, value) = (rest.word()?, rest.word()?);
        let is_above = waiting.last_key_value().is_none_or(|(&last, _)| last < key);
        if !is_above || !(1..=settings.largest_key).contains(&key) {
            return None;
        }
        waiting.insert(key, value);
    }
    (waiting.len() == many && many < settings.cells).then_some(waiting)
}

/// Files 4: the tag says how many bytes the count has. A count that fits two has no other.
fn read_count(tag: u8, rest: &mut Rest) -> Option<usize> {
    match tag {
        FEW_TAG => Some(usize::from(rest.byte()?) * 256 + usize::from(rest.byte()?)),
        MANY_TAG => Some(rest.word()? as usize).filter(|many| *many > 65_535),
        _ => None,
    }
}

/// The bytes that are not read yet.
struct Rest<'a>(&'a [u8]);

impl Rest<'_> {
    fn byte(&mut self) -> Option<u8> {
        let (&byte, after) = self.0.split_first()?;
        self.0 = after;
        Some(byte)
    }

    /// Files 1: four bytes.
    fn word(&mut self) -> Option<u32> {
        let (&word, after) = self.0.split_first_chunk()?;
        self.0 = after;
        Some(u32::from_be_bytes(word))
    }
}
