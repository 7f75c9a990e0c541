//! Keeps a list over a restart. Each run reads the list from the file that is named, or sets up a fresh one if there is no such file, makes
//! the calls that the other arguments say, and writes the list back:
//!
//! ```text
//! cargo run --example restart -- waiting N 6 60 N 5 50
//! cargo run --example restart -- waiting T T
//! ```
//!
//! `N key value` is an insert and `T` a take. If the file can't be read, is not a list's, or an argument is not understood, nothing is written.

use mdlist_host::*;
use std::error::Error;
use std::ffi::OsString;
use std::fs::{self, File};
use std::io::{self, Write};
use std::path::{Path, PathBuf};
use std::process::ExitCode;

pub const D: u32 = 8;
pub const K: u32 = u32::MAX;
pub const C: u32 = 512;

const USAGE: &str = "restart FILE [N key value | T]..";

/// Beside the file, so that it is in the same folder and a rename puts it in the file's place.
pub fn second_name(path: &Path) -> PathBuf {
    let mut name = OsString::from(path);
    name.push(".new");
    PathBuf::from(name)
}

/// Writes the list to a file of the second name and then gives it the first. Wherever the machine stops, under the first name there is the
/// old file whole or the new one whole: the bytes are on the disk before the name changes, and the name before this returns.
pub fn save(list: &List<'_>, path: &Path) -> io::Result<()> {
    let mut bytes = [0; file_length(C as usize - 1)];
    let length = list.write(&mut bytes).map_err(io::Error::other)?;
    let second = second_name(path);
    let mut file = File::create(&second)?;
    file.write_all(&bytes[..length])?;
    file.sync_all()?;
    fs::rename(&second, path)?;
    let folder = path.parent().filter(|folder| !folder.as_os_str().is_empty()).unwrap_or(Path::new("."));
    File::open(folder)?.sync_all()
}

/// The list that was saved, or a fresh one if there is no file. A file that is cut, torn or altered is an error: it is left as it is, and
/// it is for people to say what becomes of it.
pub fn load<'a>(path: &Path, words: &'a mut [u32]) -> io::Result<List<'a>> {
    let list = match fs::read(path) {
        Ok(bytes) => List::read(&bytes, words),
        Err(error) if error.kind() == io::ErrorKind::NotFound => List::set_up(D, K, C, words),
        Err(error) => return Err(error),
    };
    list.map_err(io::Error::other)
}

/// Makes the calls that the arguments say; each is answered by a line.
fn make_calls(list: &mut List<'_>, mut arguments: impl Iterator<Item = String>) -> Result<(), Box<dyn Error>> {
    while let Some(call) = arguments.next() {
        let mut number = || arguments.next().ok_or(USAGE)?.parse::<u32>().map_err(|_| USAGE);
        let answer = match call.as_str() {
            "N" => list.insert(number()?, number()?).map(|looked| format!("inserted, looked {looked}")),
            "T" => list.take().map(|taken| format!("key {}, value {}", taken.key, taken.value)),
            _ => return Err(USAGE.into()),
        };
        println!("{}", answer.unwrap_or_else(|refusal| refusal.to_string()));
    }
    Ok(())
}

fn run(mut arguments: impl Iterator<Item = String>) -> Result<(), Box<dyn Error>> {
    let path = PathBuf::from(arguments.next().ok_or(USAGE)?);
    let mut words = vec![0; words_needed(D, C)];
    let mut list = load(&path, &mut words)?;
    make_calls(&mut list, arguments)?;
    Ok(save(&list, &path)?)
}

fn main() -> ExitCode {
    match run(std::env::args().skip(1)) {
        Ok(()) => ExitCode::SUCCESS,
        Err(why) => {
            eprintln!("restart: {why}");
            ExitCode::from(2)
        }
    }
}
