//! Puts drawn cases of the five calls on a day's file to libpine_c.a and to a model of the file, and compares all that can
//! be seen: the answer, the number beside it, every byte and element of every row, and the guards about the rows.
//!
//!     pine-files SEED COUNT
//!
//! The original has no such calls. The model is written from docs/PINE.md, "The day's file": a list of entries, sorted by
//! the address and the valve; numbers are u128. It stops at the first difference with status 1.
use jihmeto_pine::{file_add, file_max, file_read, file_size, file_write, Error, FileKey, PineParam};
use std::collections::BTreeMap;

const P: u128 = (1 << 64) - (1 << 32) + 1;

/// xorshift
struct Random(u64);

impl Random {
    fn next(&mut self) -> u64 {
        self.0 ^= self.0 << 13;
        self.0 ^= self.0 >> 7;
        self.0 ^= self.0 << 17;
        self.0.wrapping_mul(0x2545_f491_4f6c_dd1d)
    }

    fn below(&mut self, n: usize) -> usize {
        ((self.next() >> 11) % n as u64) as usize
    }

    fn once_in(&mut self, n: usize) -> bool {
        self.below(n) == 0
    }

    fn element(&mut self) -> u64 {
        match self.below(4) {
            0 => self.below(3) as u64,
            1 => (P - 1) as u64 - self.below(3) as u64,
            _ => (u128::from(self.next()) % P) as u64,
        }
    }

    fn no_element(&mut self) -> u64 {
        if self.once_in(2) { P as u64 + self.below(2) as u64 } else { u64::MAX - self.below(9) as u64 }
    }

    fn bytes(&mut self, len: usize) -> Vec<u8> {
        (0..len).map(|_| (self.next() >> 56) as u8).collect()
    }

    fn key(&mut self) -> [u8; 8] {
        let mut key = [[0; 8], [2, 0, 0, 0, 0, 9, 1, 0], [255; 8]][self.below(3)];
        for _ in 0..self.below(3) {
            let at = self.below(8);
            key[at] = [0, 1, 2, 127, 128, 255][self.below(6)];
        }
        key
    }

    /// The length that it is to have, or another.
    fn near(&mut self, len: usize) -> usize {
        match self.below(40) {
            0 => len + 1,
            1 => len.saturating_sub(1),
            2 => self.below(40),
            _ => len,
        }
    }
}

// ---- the model

#[derive(Clone, PartialEq)]
struct Entry {
    address: [u8; 6],
    valve: u16,
    reports: u32,
    body: Vec<u64>,
}

impl Entry {
    fn order(&self) -> ([u8; 6], u16) {
        (self.address, self.valve)
    }
}

fn split(key: [u8; 8]) -> ([u8; 6], u16) {
    (key[..6].try_into().unwrap(), key[6] as u16 + 256 * key[7] as u16)
}

fn contents_of(entries: &[Entry]) -> Vec<u8> {
    let one = |e: &Entry| [&e.address[..], &e.valve.to_le_bytes(), &e.reports.to_le_bytes()].concat();
    entries.iter().flat_map(one).collect()
}

fn bodies_of(entries: &[Entry]) -> Vec<u64> {
    entries.iter().flat_map(|e| e.body.clone()).collect()
}

fn bytes_of(d: usize, entries: &[Entry]) -> Vec<u8> {
    let mut file = (entries.len() as u16).to_le_bytes().to_vec();
    file.extend((d as u32).to_le_bytes());
    file.extend(contents_of(entries));
    file.extend(bodies_of(entries).iter().flat_map(|x| x.to_le_bytes()));
    file
}

fn entries_of(d: usize, contents: &[u8], bodies: &[u64]) -> Vec<Entry> {
    let body = |k: usize| bodies[d * k..d * k + d].to_vec();
    let entry = |(k, c): (usize, &[u8])| Entry {
        address: c[..6].try_into().unwrap(),
        valve: u16::from_le_bytes([c[6], c[7]]),
        reports: u32::from_le_bytes([c[8], c[9], c[10], c[11]]),
        body: body(k),
    };
    contents.chunks(12).enumerate().map(entry).collect()
}

fn may_stand(entries: &[Entry]) -> bool {
    entries.len() <= 1024
        && entries.windows(2).all(|two| two[0].order() < two[1].order())
        && entries.iter().all(|e| e.body.iter().all(|&x| u128::from(x) < P))
}

fn count_in(file: &[u8]) -> usize {
    if file.len() < 2 { 0 } else { file[0] as usize + 256 * file[1] as usize }
}

fn entries_in(d: usize, file: &[u8]) -> Option<Vec<Entry>> {
    let count = count_in(file);
    if file.len() < 6 || u32::from_le_bytes(file[2..6].try_into().unwrap()) as usize != d {
        return None;
    }
    if file.len() != 6 + count * (12 + 8 * d) {
        return None;
    }
    let (contents, bodies) = file[6..].split_at(12 * count);
    let bodies: Vec<u64> = bodies.chunks(8).map(|x| u64::from_le_bytes(x.try_into().unwrap())).collect();
    Some(entries_of(d, contents, &bodies)).filter(|entries| may_stand(entries))
}

/// A refusal as a number and a place.
type Refusal = (u64, u64);

fn inputs_rule(param: PineParam) -> Option<Refusal> {
    let rule = match param {
        p if p.num_wr_successes > p.num_wr_tests => 1,
        p if p.norm_bound == 0 || p.norm_bound > 3037000499 => 2,
        p if p.dimension == 0 || p.dimension > 65536 => 3,
        p if p.frac_bits > 30 => 4,
        p if p.chunk_len == 0 || p.chunk_len > 65536 => 5,
        p if p.chunk_len_sq_norm_equal == 0 || p.chunk_len_sq_norm_equal > 65536 => 5,
        p if p.num_wr_tests == 0 || p.num_wr_tests > 256 => 6,
        p if p.alpha_numerator == 0 || p.alpha_denominator == 0 => 19,
        _ => return None,
    };
    Some((rule, 0))
}

fn rule_7(place: u64, len: usize, wanted: u128) -> Option<Refusal> {
    (len as u128 != wanted).then_some((7, place))
}

fn add(d: usize, entries: &[Entry], key: [u8; 8], share: &[u64]) -> Result<Vec<Entry>, Refusal> {
    let (address, valve) = split(key);
    let mut by_key: BTreeMap<_, Entry> = entries.iter().map(|e| (e.order(), e.clone())).collect();
    let full = by_key.len() >= 1024;
    if !by_key.contains_key(&(address, valve)) && full {
        return Err((15, 0));
    }
    let place = by_key.keys().filter(|k| **k < (address, valve)).count() as u64;
    let fresh = Entry { address, valve, reports: 0, body: vec![0; d] };
    let entry = by_key.entry((address, valve)).or_insert(fresh);
    entry.reports = entry.reports.checked_add(1).ok_or((16, place))?;
    for (sum, x) in entry.body.iter_mut().zip(share) {
        *sum = ((u128::from(*sum) + u128::from(*x)) % P) as u64;
    }
    Ok(by_key.into_values().collect())
}

// ---- drawing

fn draw_param(random: &mut Random) -> PineParam {
    let most = if random.once_in(8) { 20 } else { 3 };
    let d = 1 + random.below(most) as u64;
    let mut p = PineParam::standard(1 + random.below(3037000499) as u64, d, random.below(31) as u64, 1, 9, 4, 3);
    if random.once_in(24) {
        match random.below(8) {
            0 => p.num_wr_successes = 5,
            1 => p.norm_bound = 0,
            2 => p.dimension = [0, 65537, u64::MAX][random.below(3)],
            3 => p.frac_bits = 31,
            4 => p.chunk_len = 0,
            5 => p.chunk_len_sq_norm_equal = 65537,
            6 => (p.num_wr_tests, p.num_wr_successes) = (257, 0),
            _ => p.alpha_denominator = 0,
        }
    }
    p
}

fn draw_entries(random: &mut Random, d: usize) -> Vec<Entry> {
    let many = if random.once_in(200) && d < 3 { 1023 + random.below(3) } else { random.below(6) };
    let mut by_key = BTreeMap::new();
    for k in 0..many {
        let key = if many > 6 { [9, 9, 9, 9, 9, 9, k as u8, (k >> 8) as u8] } else { random.key() };
        let (address, valve) = split(key);
        let reports = [0, 1, 255, 65535, u32::MAX - 1, u32::MAX][random.below(6)];
        let body = (0..d).map(|_| random.element()).collect();
        by_key.insert((address, valve), Entry { address, valve, reports, body });
    }
    by_key.into_values().collect()
}

/// A file, with a damage or none.
fn draw_file(random: &mut Random, d: usize) -> Vec<u8> {
    let mut entries = draw_entries(random, d);
    let n = entries.len();
    if random.once_in(10) && n > 1 {
        let at = random.below(n - 1);
        entries.swap(at, at + 1);
    }
    if random.once_in(12) && n > 1 {
        let (address, valve) = entries[0].order();
        (entries[1].address, entries[1].valve) = (address, valve);
    }
    if random.once_in(10) && n > 0 {
        let at = random.below(d);
        entries[n - 1].body[at] = random.no_element();
    }
    let mut file = bytes_of(d, &entries);
    if random.once_in(8) {
        let at = random.below(file.len().min(6 + 12 * n));
        file[at] ^= 1 << random.below(8);
    }
    if random.once_in(10) {
        let len = random.near(random.0 as usize % (file.len() + 1));
        file.resize(len, 0);
    }
    file
}

// ---- comparing

/// Bytes or elements between guards.
struct Lent<E> {
    memory: Vec<E>,
    before: Vec<E>,
    len: usize,
}

const GUARD: usize = 9;

impl<E: Copy + PartialEq> Lent<E> {
    fn new(len: usize, mut draw: impl FnMut() -> E) -> Lent<E> {
        let memory: Vec<E> = (0..len + 2 * GUARD).map(|_| draw()).collect();
        Lent { before: memory.clone(), memory, len }
    }

    fn row(&mut self) -> &mut [E] {
        &mut self.memory[GUARD..GUARD + self.len]
    }

    /// Whether the row begins with what is wanted, and all else is as it was.
    fn holds(&self, wanted: &[E]) -> bool {
        let end = GUARD + wanted.len();
        self.memory[GUARD..end] == *wanted
            && self.memory[..GUARD] == self.before[..GUARD]
            && self.memory[end..] == self.before[end..]
    }
}

fn in_numbers<T>(given: Result<T, Error>) -> Result<T, Refusal> {
    given.map_err(|refusal| (refusal.rule.number(), refusal.place))
}

#[derive(Default)]
struct Counts(BTreeMap<(&'static str, u64), u64>);

fn case(random: &mut Random) -> Result<(&'static str, u64), String> {
    let param = draw_param(random);
    let refused = inputs_rule(param);
    let d = if (1..=65536).contains(&param.dimension) { param.dimension as usize } else { 1 };
    let byte = |random: &mut Random| (random.next() >> 56) as u8;
    match random.below(5) {
        0 => {
            let file = draw_file(random, d);
            let count = count_in(&file);
            let (lens, most) = ([12 * count, d * count], 1 << 20);
            let [c, b] = lens.map(|len| random.near(len.min(most)));
            let mut contents = Lent::new(c, || byte(random));
            let mut bodies = Lent::new(b, || random.next());
            let entries = entries_in(d, &file);
            let wanted = refused
                .or(rule_7(2, c, lens[0] as u128))
                .or(rule_7(3, b, lens[1] as u128))
                .or(entries.is_none().then_some((14, 0)));
            let given = in_numbers(file_read(param, &file, contents.row(), bodies.row()));
            let entries = entries.filter(|_| wanted.is_none()).unwrap_or_default();
            let same = contents.holds(&contents_of(&entries)) && bodies.holds(&bodies_of(&entries));
            done("file_read", given, wanted.map_or(Ok(()), Err), same, || format!("{param:?} {file:02x?} {c} {b}"))
        }
        1 => {
            let mut entries = draw_entries(random, d);
            if random.once_in(8) && entries.len() > 1 {
                let at = random.below(entries.len() - 1);
                entries.swap(at, at + 1);
            }
            let huge = [1u64 << 62, u64::MAX, 1537228672809129302, 1 << 61, 65536, 1025];
            let count = if random.once_in(16) { huge[random.below(6)] } else { entries.len() as u64 };
            let mut contents = contents_of(&entries);
            let mut bodies = bodies_of(&entries);
            let len = random.near(contents.len());
            contents.resize(len, 0);
            let len = random.near(bodies.len());
            bodies.resize(len, 0);
            if random.once_in(8) && !bodies.is_empty() {
                let at = random.below(bodies.len());
                bodies[at] = random.no_element();
            }
            let n = random.near(6 + entries.len() * (12 + 8 * d));
            let mut file = Lent::new(n, || byte(random));
            let (whole, d128) = (u128::from(count), d as u128);
            let lens = refused
                .or(rule_7(1, contents.len(), 12 * whole))
                .or(rule_7(2, bodies.len(), d128 * whole))
                .or(rule_7(3, n, 6 + whole * (12 + 8 * d128)));
            let made = if lens.is_none() { entries_of(d, &contents, &bodies) } else { Vec::new() };
            let wanted = lens.or((!may_stand(&made)).then_some((14, 0)));
            let given = in_numbers(file_write(param, count, &contents, &bodies, file.row()));
            let row = if wanted.is_none() { bytes_of(d, &made) } else { Vec::new() };
            let same = file.holds(&row);
            done("file_write", given, wanted.map_or(Ok(()), Err), same, || format!("{param:?} {count} {contents:02x?} {bodies:x?} {n}"))
        }
        2 => {
            let reports = (random.next() >> (32 + random.below(32))) as u32;
            let wanted = refused.map_or(Ok(6 + u64::from(reports.min(1024)) * (12 + 8 * d as u64)), Err);
            done("file_max", in_numbers(file_max(param, reports)), wanted, true, || format!("{param:?} {reports}"))
        }
        3 => {
            let old = draw_file(random, d);
            let mut key = random.key();
            if random.once_in(2) && old.len() >= 18 {
                key = old[6..14].try_into().unwrap();
            }
            let mut share: Vec<u64> = (0..random.near(d)).map(|_| random.element()).collect();
            if random.once_in(12) && !share.is_empty() {
                let at = random.below(share.len());
                share[at] = random.no_element();
            }
            let n = random.near(old.len() + 12 + 8 * d);
            let mut second = Lent::new(n, || byte(random));
            let entries = entries_in(d, &old);
            let element = share.iter().position(|&x| u128::from(x) >= P);
            let refused = refused
                .or(rule_7(2, share.len(), d as u128))
                .or(rule_7(3, n, (old.len() + 12 + 8 * d) as u128))
                .or(entries.is_none().then_some((14, 0)))
                .or(element.map(|at| (12, at as u64)));
            let made = match refused {
                Some(refusal) => Err(refusal),
                None => add(d, &entries.unwrap(), key, &share).map(|entries| bytes_of(d, &entries)),
            };
            let (address, valve) = split(key);
            let given = in_numbers(file_add(param, FileKey { address, valve }, &old, &share, second.row()));
            let same = second.holds(made.as_deref().unwrap_or(&[]));
            let wanted = made.map(|new| new.len() as u64);
            done("file_add", given, wanted, same, || format!("{param:?} {key:02x?} {old:02x?} {share:x?} {n}"))
        }
        _ => {
            let many = if random.once_in(100) { 1000 + random.below(100) } else { random.below(12) };
            let spread = many > 12;
            let mut keys: Vec<u8> = (0..many)
                .flat_map(|k| if spread { [k as u8, 0, 0, 0, 0, 0, 3, (k >> 8) as u8] } else { random.key() })
                .collect();
            if random.once_in(12) {
                let more = 1 + random.below(7);
                keys.extend(random.bytes(more));
            }
            // by adding itself, with no shares
            let mut made = Ok(Vec::new());
            for key in keys.chunks_exact(8) {
                made = made.and_then(|entries: Vec<Entry>| {
                    if spread && entries.len() < 1024 {
                        let (address, valve) = split(key.try_into().unwrap());
                        return Ok([entries, vec![Entry { address, valve, reports: 1, body: Vec::new() }]].concat());
                    }
                    add(0, &entries, key.try_into().unwrap(), &[])
                });
            }
            let refused = refused.or(rule_7(1, keys.len() % 8, 0));
            let wanted = refused.map_or(made, Err).map(|entries| (6 + entries.len() * (12 + 8 * d)) as u64);
            done("file_size", in_numbers(file_size(param, &keys)), wanted, true, || format!("{param:?} {keys:02x?}"))
        }
    }
}

fn done<T: PartialEq + std::fmt::Debug>(
    call: &'static str,
    given: Result<T, Refusal>,
    wanted: Result<T, Refusal>,
    same: bool,
    case: impl Fn() -> String,
) -> Result<(&'static str, u64), String> {
    if given != wanted || !same {
        return Err(format!("{call}: ours {given:?}, wanted {wanted:?}, rows {same}\ncase: {}", case()));
    }
    Ok((call, given.err().map_or(0, |(number, _)| number)))
}

fn main() {
    let words: Vec<u64> = std::env::args().skip(1).map(|word| word.parse().expect("SEED COUNT")).collect();
    let (seed, count) = (words[0], words[1]);
    let mut random = Random((seed + 1).wrapping_mul(0x9e37_79b9_7f4a_7c15));
    let mut counts = Counts::default();
    for index in 0..count {
        match case(&mut random) {
            Ok(answered) => *counts.0.entry(answered).or_default() += 1,
            Err(difference) => {
                println!("DIFFERENCE, seed {seed}, case {index}: {difference}");
                std::process::exit(1);
            }
        }
    }
    for call in ["file_read", "file_write", "file_max", "file_add", "file_size"] {
        let of = |rule| counts.0.get(&(call, rule)).copied().unwrap_or(0);
        let refused: Vec<String> = (1..=21).filter(|&n| of(n) > 0).map(|n| format!("{n}: {}", of(n))).collect();
        println!("{call}: accepted {}, refused by {}", of(0), refused.join(", "));
    }
    println!("files, seed {seed}: {count} cases, no difference");
}
