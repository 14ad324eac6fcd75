//! The calls on a day's file, beside plain copies of its bytes; adding also beside a copy that tests rule 14 first; and
//! the exact size beside sorting. The original has no such calls.

use crate::{by_hand::Number, by_hand_calls::Param, row, way, Random, Row, Title, Ways};

#[repr(C)]
#[derive(Debug, PartialEq)]
struct Answer {
    number: u64,
    place: u64,
}

#[repr(C)]
struct FileLen {
    answer: Answer,
    len: u64,
}

#[repr(C)]
struct Key([u8; 8]);

extern "C" {
    fn pine_file_read(
        param: Param,
        file: *const u8,
        file_len: usize,
        contents: *mut u8,
        contents_len: usize,
        bodies: *mut u64,
        bodies_len: usize,
    ) -> Answer;
    fn pine_file_write(
        param: Param,
        count: u64,
        contents: *const u8,
        contents_len: usize,
        bodies: *const u64,
        bodies_len: usize,
        file: *mut u8,
        file_len: usize,
    ) -> Answer;
    fn pine_file_add(
        param: Param,
        key: Key,
        old: *const u8,
        old_len: usize,
        share: *const u64,
        share_len: usize,
        second: *mut u8,
        second_len: usize,
    ) -> FileLen;
    fn pine_file_size(param: Param, keys: *const u8, keys_len: usize) -> FileLen;
}

const D: usize = 1000;
const ENTRIES: usize = 1024;
const ENTRY: usize = 12 + 8 * D;

fn param() -> Param {
    Param([1, D as u64, 0, 1, 1, 1, 1], [87, 10], [0, 0])
}

fn accepted(answer: Answer) {
    assert_eq!(answer, Answer { number: 0, place: 0 });
}

/// The n-th key of a file, of which every second is held: even numbers are held, odd ones are new.
fn key(n: usize) -> [u8; 8] {
    [2, 0, 0, 0, (n >> 9) as u8, 0, n as u8, (n >> 8 & 1) as u8]
}

/// A file of so many entries, as its three parts.
struct File {
    contents: Vec<u8>,
    bodies: Vec<u64>,
    share: Vec<u64>,
    key: [u8; 8],
}

fn file(random: &mut Random, entries: usize, held: bool) -> File {
    let contents = (0..entries).flat_map(|k| [&key(2 * k)[..], &[1, 0, 0, 0]].concat()).collect();
    let n = 2 * (random.next() as usize % entries) + usize::from(!held);
    File { contents, bodies: random.elements(D * entries), share: random.elements(D), key: key(n) }
}

/// An element has its eight bytes in order here, low byte first.
fn bytes_of(row: &[u64]) -> &[u8] {
    // SAFETY: as many bytes as the elements have
    unsafe { std::slice::from_raw_parts(row.as_ptr().cast(), 8 * row.len()) }
}

fn bytes_of_mut(row: &mut [u64]) -> &mut [u8] {
    // SAFETY: as many bytes as the elements have
    unsafe { std::slice::from_raw_parts_mut(row.as_mut_ptr().cast(), 8 * row.len()) }
}

fn whole(f: &File) -> Vec<u8> {
    let entries = f.contents.len() / 12;
    [&(entries as u16).to_le_bytes()[..], &(D as u32).to_le_bytes(), &f.contents, bytes_of(&f.bodies)].concat()
}

/// Numbers that two ways can be compared by.
fn words(row: &[u8]) -> Vec<u64> {
    row.chunks(8).map(|x| x.iter().rev().fold(0, |n, b| n << 8 | u64::from(*b))).collect()
}

fn title(name: &str, by_hand: &str, entries: usize) -> Title {
    let bytes = 6 + entries * ENTRY;
    let note = format!("{entries} entries of d = {D}; by hand {by_hand}");
    Title { note, ..Title::new("file", name, bytes, "byte", bytes) }
}

fn reading() -> Row {
    let ready = |f: &File| (whole(f), vec![1u8; f.contents.len()], vec![1u64; f.bodies.len()]);
    type Rows = (Vec<u8>, Vec<u8>, Vec<u64>);
    let gave = |(_, contents, bodies): Rows, ()| [words(&contents), bodies].concat();
    let ours = |(file, contents, bodies): &mut Rows| {
        let (c, b) = (contents.len(), bodies.len());
        accepted(unsafe {
            pine_file_read(param(), file.as_ptr(), file.len(), contents.as_mut_ptr(), c, bodies.as_mut_ptr(), b)
        })
    };
    let by_hand = |(file, contents, bodies): &mut Rows| {
        let (c, b) = file[6..].split_at(contents.len());
        contents.copy_from_slice(c);
        bytes_of_mut(bodies).copy_from_slice(b);
    };
    let ways = Ways { original: None, ours: way(ready, ours, gave), by_hand: Some(way(ready, by_hand, gave)) };
    row(title("file_read", "copies", ENTRIES), |random| file(random, ENTRIES, true), ways)
}

fn writing() -> Row {
    let bytes = 6 + ENTRIES * ENTRY;
    type Rows = (Vec<u8>, Vec<u64>, Vec<u8>);
    let ready = move |f: &File| (f.contents.clone(), f.bodies.clone(), vec![1u8; bytes]);
    let gave = |(_, _, file): Rows, ()| words(&file);
    let ours = |(contents, bodies, file): &mut Rows| {
        let (c, b, n) = (contents.len(), bodies.len(), file.len());
        let count = ENTRIES as u64;
        accepted(unsafe {
            pine_file_write(param(), count, contents.as_ptr(), c, bodies.as_ptr(), b, file.as_mut_ptr(), n)
        })
    };
    let by_hand = |(contents, bodies, file): &mut Rows| {
        file[..2].copy_from_slice(&(ENTRIES as u16).to_le_bytes());
        file[2..6].copy_from_slice(&(D as u32).to_le_bytes());
        let (c, b) = file[6..].split_at_mut(contents.len());
        c.copy_from_slice(contents);
        b.copy_from_slice(bytes_of(bodies));
    };
    let ways = Ways { original: None, ours: way(ready, ours, gave), by_hand: Some(way(ready, by_hand, gave)) };
    row(title("file_write", "copies", ENTRIES), |random| file(random, ENTRIES, true), ways)
}

/// A key's bytes in the order in which they are compared.
fn order(k: &[u8]) -> [u8; 8] {
    [k[0], k[1], k[2], k[3], k[4], k[5], k[7], k[6]]
}

/// A copy of the file, and the share added to its body, where the place of the key is found by halving; no rule tested.
fn add_by_hand(old: &[u8], key: [u8; 8], share: &[u64], second: &mut [u8]) -> usize {
    let entries = u16::from_le_bytes([old[0], old[1]]) as usize;
    let (contents, bodies) = old[6..].split_at(12 * entries);
    let at = (0..entries).collect::<Vec<_>>().partition_point(|k| order(&contents[12 * k..]) < order(&key));
    let held = at < entries && contents[12 * at..12 * at + 8] == key;
    let from = if held { at + 1 } else { at };
    let now = if held { entries } else { entries + 1 };
    second[..2].copy_from_slice(&(now as u16).to_le_bytes());
    second[2..6].copy_from_slice(&old[2..6]);
    let (c, b) = second[6..6 + now * ENTRY].split_at_mut(12 * now);
    c[..12 * at].copy_from_slice(&contents[..12 * at]);
    c[12 * at + 12..].copy_from_slice(&contents[12 * from..]);
    b[..8 * D * at].copy_from_slice(&bodies[..8 * D * at]);
    b[8 * D * (at + 1)..].copy_from_slice(&bodies[8 * D * from..]);
    let reports = if held { u32::from_le_bytes(contents[12 * at + 8..12 * at + 12].try_into().unwrap()) } else { 0 };
    c[12 * at..12 * at + 8].copy_from_slice(&key);
    c[12 * at + 8..12 * at + 12].copy_from_slice(&(reports + 1).to_le_bytes());
    for (k, x) in share.iter().enumerate() {
        let old = &bodies[8 * (D * at + k).min(D * entries - 1)..][..8];
        let sum = if held { u64::from_le_bytes(old.try_into().unwrap()).plus(*x) } else { *x };
        b[8 * (D * at + k)..][..8].copy_from_slice(&sum.to_le_bytes());
    }
    6 + now * ENTRY
}

/// Rule 14: the dimension, the length, rising keys, and elements below p.
fn is_file(file: &[u8]) -> bool {
    let Some((head, rest)) = file.split_at_checked(6) else { return false };
    let entries = usize::from(u16::from_le_bytes([head[0], head[1]]));
    if head[2..] != (D as u32).to_le_bytes() || entries > ENTRIES || rest.len() != entries * ENTRY {
        return false;
    }
    let (contents, bodies) = rest.split_at(12 * entries);
    let rise = contents.chunks(12).zip(contents.chunks(12).skip(1)).all(|(a, b)| order(a) < order(b));
    let below = |x: &[u8]| u64::from_le_bytes(x.try_into().unwrap()) < u64::P;
    rise && bodies.chunks_exact(8).fold(true, |all, x| all & below(x))
}

fn adding(name: &str, entries: usize, held: bool, tests: bool) -> Row {
    let bytes = 6 + entries * ENTRY;
    type Rows = (Vec<u8>, [u8; 8], Vec<u64>, Vec<u8>);
    let ready = move |f: &File| (whole(f), f.key, f.share.clone(), vec![1u8; bytes + ENTRY]);
    let gave = |(_, _, _, second): Rows, len: usize| [words(&second), vec![len as u64]].concat();
    let ours = |(old, key, share, second): &mut Rows| {
        let (o, s, n) = (old.len(), share.len(), second.len());
        let key = Key(*key);
        let added = unsafe { pine_file_add(param(), key, old.as_ptr(), o, share.as_ptr(), s, second.as_mut_ptr(), n) };
        accepted(added.answer);
        added.len as usize
    };
    let by_hand = move |(old, key, share, second): &mut Rows| {
        assert!(!tests || is_file(old) && share.iter().all(|x| *x < u64::P));
        add_by_hand(old, *key, share, second)
    };
    let ways = Ways { original: None, ours: way(ready, ours, gave), by_hand: Some(way(ready, by_hand, gave)) };
    let does = if tests { "tests rule 14, copies and adds" } else { "copies and adds" };
    row(title(name, does, entries), move |random| file(random, entries, held), ways)
}

const KEYS: usize = 1_000_000;

fn size() -> Row {
    let fresh =
        |random: &mut Random| -> Vec<u8> { (0..KEYS).flat_map(|_| key(random.next() as usize % ENTRIES)).collect() };
    let ready = |keys: &Vec<u8>| keys.clone();
    let gave = |_: Vec<u8>, len: u64| vec![len];
    let ours = |keys: &mut Vec<u8>| {
        let size = unsafe { pine_file_size(param(), keys.as_ptr(), keys.len()) };
        accepted(size.answer);
        size.len
    };
    let by_hand = |keys: &mut Vec<u8>| {
        let mut all: Vec<u64> = keys.chunks_exact(8).map(|x| u64::from_le_bytes(x.try_into().unwrap())).collect();
        all.sort_unstable();
        all.dedup();
        (6 + all.len() * ENTRY) as u64
    };
    let ways = Ways { original: None, ours: way(ready, ours, gave), by_hand: Some(way(ready, by_hand, gave)) };
    let title = Title {
        note: "a million keys, 1024 different; by hand sorts".into(),
        ..Title::new("file", "file_size", KEYS, "key", 8 * KEYS)
    };
    row(title, fresh, ways)
}

pub fn table() -> Vec<Row> {
    vec![
        reading(),
        writing(),
        adding("file_add to a held key", ENTRIES, true, false),
        adding("file_add to a held key", ENTRIES, true, true),
        adding("file_add of a new key", ENTRIES - 1, false, false),
        adding("file_add of a new key", ENTRIES - 1, false, true),
        size(),
    ]
}
