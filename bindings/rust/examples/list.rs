//! Lists a day's file: a line for each entry, with the controller's address, the valve, the count of reports, and the
//! elements of its body. With the other server's file and the inputs' frac_bits it lists the sums of both as doubles.
//!
//!     cargo run --example list -- FILE
//!     cargo run --example list -- FILE OTHER FRAC_BITS
use jihmeto_pine::{DayFile, FileEntry, FileKey, FileRows, Pine, PineParam};
use std::{env, fs, process};

/// The file's own dimension, its bytes 2 to 5; 0 where it has none, which is refused.
fn dimension(bytes: &[u8]) -> u64 {
    match *bytes {
        [_, _, a, b, c, d, ..] => u32::from_le_bytes([a, b, c, d]).into(),
        _ => 0,
    }
}

/// Reading needs no other inputs than the dimension, and decoding frac_bits.
fn pine_of(dimension: u64, frac_bits: u64) -> Result<Pine, String> {
    Pine::new(PineParam::standard(1, dimension, frac_bits, 1, 1, 1, 1)).map_err(|e| e.to_string())
}

fn read(pine: &Pine, name: &str, bytes: Vec<u8>) -> Result<FileRows, String> {
    let file = pine.day_file_from(bytes);
    file.and_then(|file: DayFile| file.read())
        .map_err(|refusal| format!("{name}: {refusal}"))
}

fn load(name: &str) -> Result<Vec<u8>, String> {
    fs::read(name).map_err(|error| format!("{name}: {error}"))
}

fn put(key: FileKey, reports: &str, numbers: &str) {
    let address = key.address.map(|byte| format!("{byte:02x}")).join(":");
    println!("{address}  {:>5}  {reports:>10}  {numbers}", key.valve);
}

fn list(rows: &FileRows) {
    put_head("elements, in hexadecimal");
    for FileEntry { key, reports, body } in rows.entries() {
        let elements: Vec<String> = body.row().iter().map(|x| format!("{x:016x}")).collect();
        put(key, &reports.to_string(), &elements.join(" "));
    }
}

fn put_head(numbers: &str) {
    println!("address            valve     reports  {numbers}");
}

fn list_sums(pine: &Pine, rows: &FileRows, other: &FileRows) -> Result<(), String> {
    put_head("decoded sums");
    for entry in rows.entries() {
        let Some(beside) = other.get(entry.key) else {
            put(
                entry.key,
                &entry.reports.to_string(),
                "not in the other file",
            );
            continue;
        };
        if entry.reports != beside.reports {
            let both = format!("{}, {}", entry.reports, beside.reports);
            put(entry.key, &both, "not the same reports");
            continue;
        }
        let sums = pine.unshard(&entry.body, &beside.body);
        let sums = sums.map_err(|refusal| refusal.to_string())?;
        let sums: Vec<String> = sums.iter().map(f64::to_string).collect();
        put(entry.key, &entry.reports.to_string(), &sums.join(" "));
    }
    for entry in other
        .entries()
        .filter(|entry| rows.get(entry.key).is_none())
    {
        put(
            entry.key,
            &entry.reports.to_string(),
            "in the other file alone",
        );
    }
    Ok(())
}

fn run(words: &[String]) -> Result<(), String> {
    let (name, other) = match words {
        [name] => (name, None),
        [name, other, frac_bits] => {
            let frac_bits: u64 = frac_bits.parse().map_err(|_| "FRAC_BITS is no number")?;
            (name, Some((other, frac_bits)))
        }
        _ => return Err("give FILE, or FILE OTHER FRAC_BITS".into()),
    };
    let bytes = load(name)?;
    let pine = pine_of(
        dimension(&bytes),
        other.map_or(0, |(_, frac_bits)| frac_bits),
    )
    .map_err(|refusal| format!("{name}: {refusal}"))?;
    let rows = read(&pine, name, bytes)?;
    println!(
        "{} entries of dimension {}",
        rows.entries().len(),
        pine.dimension()
    );
    match other {
        None => list(&rows),
        Some((other, _)) => list_sums(&pine, &rows, &read(&pine, other, load(other)?)?)?,
    }
    Ok(())
}

fn main() {
    let words: Vec<String> = env::args().skip(1).collect();
    if let Err(why) = run(&words) {
        eprintln!("list: {why}");
        process::exit(1);
    }
}
