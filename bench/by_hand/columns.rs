// Reads a column into memory by the `csv` crate, or the lines of a file, and adds up an int column: what a
// Rust programmer would write for the same work, to be measured beside `spd`.

use csv::{ByteRecord, ReaderBuilder};
use std::env::args;
use std::fs::{File, read};
use std::str::from_utf8;

/// The cells of a field, each through a function.
fn column<T>(file: &str, field: &str, entry: impl Fn(&[u8]) -> T) -> Vec<T> {
    let mut reader = ReaderBuilder::new()
        .has_headers(false)
        .from_reader(File::open(file).expect("a file"));
    let mut record = ByteRecord::new();
    reader.read_byte_record(&mut record).expect("a header");
    let place = record.iter().position(|name| name == field.as_bytes()).expect("a field");
    let mut entries = Vec::new();
    while reader.read_byte_record(&mut record).expect("a record") {
        entries.push(entry(&record[place]));
    }
    entries
}

fn number(cell: &[u8]) -> i64 {
    from_utf8(cell).expect("digits").parse().expect("a number")
}

/// The byte strings, one behind the other, with their ends.
fn lines(file: &str) -> (Vec<u8>, Vec<usize>) {
    let (mut bytes, mut ends) = (Vec::new(), Vec::new());
    let text = read(file).expect("a file");
    let whole = text.strip_suffix(b"\n").unwrap_or(&text);
    for line in whole.split(|byte| *byte == b'\n') {
        bytes.extend_from_slice(line.strip_suffix(b"\r").unwrap_or(line));
        ends.push(bytes.len());
    }
    (bytes, ends)
}

fn by_loop(entries: &[i64]) -> i64 {
    entries.iter().fold(0, |sum, entry| sum.wrapping_add(*entry))
}

fn by_halves(entries: &[i64]) -> i64 {
    match entries {
        [] => 0,
        [entry] => *entry,
        _ => {
            let (left, right) = entries.split_at(entries.len() / 2);
            by_halves(left).wrapping_add(by_halves(right))
        }
    }
}

fn main() {
    let words: Vec<String> = args().skip(1).collect();
    let words: Vec<&str> = words.iter().map(String::as_str).collect();
    match words[..] {
        ["int", file, field] => println!("{}", column(file, field, number).len()),
        ["text", file, field] => println!("{}", column(file, field, <[u8]>::to_vec).len()),
        ["lines", file] => println!("{}", lines(file).1.len()),
        ["loop", file, field] => println!("{}", by_loop(&column(file, field, number))),
        ["halves", file, field] => println!("{}", by_halves(&column(file, field, number))),
        _ => panic!("words that are none of these"),
    }
}
