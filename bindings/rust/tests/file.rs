// The day's file: beside a map of sums kept in whole numbers, refusals with the rows as they were, and the growing file.
use jihmeto_pine::*;
#[cfg(feature = "alloc")]
use std::collections::BTreeMap;

const P: u64 = FIELD_MODULUS;

fn param(d: u64) -> PineParam {
    PineParam::standard(4096, d, 8, 16, 2, 10, 10)
}

fn key(address: [u8; 6], valve: u16) -> FileKey {
    FileKey { address, valve }
}

const A: [u8; 6] = [2, 0, 0, 0, 0, 9];
const B: [u8; 6] = [2, 0, 0, 0, 0, 10];

fn rule<T>(given: Result<T, Error>) -> Option<(Rule, u64)> {
    given.err().map(|refusal| (refusal.rule, refusal.place))
}

// d = 1: valve 256 of one controller, whose first valve byte is 0, comes after valve 1
fn small() -> [u8; 46] {
    let mut file = [7; 46];
    let contents = [
        2, 0, 0, 0, 0, 9, 1, 0, 3, 0, 0, 0, 2, 0, 0, 0, 0, 9, 0, 1, 255, 255, 255, 255,
    ];
    assert_eq!(
        file_write(param(1), 2, &contents, &[5, P - 1], &mut file),
        Ok(())
    );
    file
}

#[test]
fn a_file_is_written_as_the_document_says() {
    let written = small();
    assert_eq!(written[..6], [2, 0, 1, 0, 0, 0]);
    assert_eq!(written[6..12], A);
    assert_eq!(written[12..18], [1, 0, 3, 0, 0, 0]);
    assert_eq!(written[24..30], [0, 1, 255, 255, 255, 255]);
    assert_eq!(written[30..38], 5u64.to_le_bytes());
    assert_eq!(written[38..], (P - 1).to_le_bytes());
    let (mut contents, mut bodies) = ([9; 24], [9; 2]);
    assert_eq!(
        file_read(param(1), &written, &mut contents, &mut bodies),
        Ok(())
    );
    assert_eq!(contents, written[6..30]);
    assert_eq!(bodies, [5, P - 1]);
}

#[test]
fn refusals_leave_the_rows() {
    let file = small();
    let read = |file: &[u8], contents: usize, bodies: usize| {
        let (mut c, mut b) = (vec![9; contents], vec![9; bodies]);
        let refused = rule(file_read(param(1), file, &mut c, &mut b));
        assert_eq!((c, b), (vec![9; contents], vec![9; bodies]));
        refused
    };
    assert_eq!(read(&file, 23, 2), Some((Rule::RowLen, 2)));
    assert_eq!(read(&file, 24, 3), Some((Rule::RowLen, 3)));
    assert_eq!(read(&file[..45], 24, 2), Some((Rule::FileLayout, 0)));
    assert_eq!(read(&[], 0, 0), Some((Rule::FileLayout, 0)));
    let write = |count, contents: &[u8], bodies: &[u64], len| {
        let mut file = vec![9; len];
        let refused = rule(file_write(param(1), count, contents, bodies, &mut file));
        assert_eq!(file, vec![9; len]);
        refused
    };
    assert_eq!(write(2, &file[6..29], &[1, 2], 46), Some((Rule::RowLen, 1)));
    assert_eq!(write(2, &file[6..30], &[1], 46), Some((Rule::RowLen, 2)));
    assert_eq!(write(2, &file[6..30], &[1, 2], 45), Some((Rule::RowLen, 3)));
    assert_eq!(
        write(2, &file[6..30], &[1, P], 46),
        Some((Rule::FileLayout, 0))
    );
    assert_eq!(write(1 << 62, &[], &[], 6), Some((Rule::RowLen, 1)));
    let add = |key, old: &[u8], share: &[u64], second: usize| {
        let mut row = vec![9; second];
        let refused = rule(file_add(param(1), key, old, share, &mut row));
        assert_eq!(row, vec![9; second]);
        refused
    };
    assert_eq!(add(key(A, 1), &file, &[1, 2], 66), Some((Rule::RowLen, 2)));
    assert_eq!(add(key(A, 1), &file, &[1], 65), Some((Rule::RowLen, 3)));
    assert_eq!(
        add(key(A, 1), &file[1..], &[P], 65),
        Some((Rule::FileLayout, 0))
    );
    assert_eq!(add(key(A, 256), &file, &[P], 66), Some((Rule::Element, 0)));
    assert_eq!(
        add(key(A, 256), &file, &[1], 66),
        Some((Rule::ReportCount, 1))
    );
    assert_eq!(rule(file_size(param(1), &[0; 9])), Some((Rule::RowLen, 1)));
    assert_eq!(rule(file_max(param(0), 1)), Some((Rule::Dimension, 0)));
}

#[test]
fn a_refusal_names_the_entry() {
    let full = Error {
        rule: Rule::ReportCount,
        place: 3,
    };
    assert_eq!(
        full.to_string(),
        "the key's count of reports is already 4294967295 (rule 16, entry 3)"
    );
}

#[test]
fn adding_leaves_what_is_past_the_new_file() {
    let file = small();
    let mut second = [9; 66];
    assert_eq!(
        file_add(param(1), key(A, 1), &file, &[P - 6], &mut second),
        Ok(46)
    );
    assert_eq!(second[46..], [9; 20]);
    assert_eq!(second[14..18], [4, 0, 0, 0]);
    assert_eq!(second[30..38], (P - 1).to_le_bytes());
    // between the two
    assert_eq!(
        file_add(param(1), key(A, 255), &file, &[8], &mut second),
        Ok(66)
    );
    assert_eq!(second[18..30], [2, 0, 0, 0, 0, 9, 255, 0, 1, 0, 0, 0]);
    assert_eq!(second[50..58], 8u64.to_le_bytes());
    assert_eq!(second[58..], file[38..]);
}

#[test]
fn lengths() {
    assert_eq!(file_max(param(2), 0), Ok(6));
    assert_eq!(file_max(param(2), 1023), Ok(6 + 1023 * 28));
    assert_eq!(
        file_max(param(65536), u32::MAX),
        Ok(6 + 1024 * (12 + 8 * 65536))
    );
    assert_eq!(file_size(param(2), &[]), Ok(6));
    let keys = [key(A, 1), key(B, 1), key(A, 1), key(A, 257)];
    let list: Vec<u8> = keys.iter().flat_map(|key| key.to_bytes()).collect();
    assert_eq!(file_size(param(2), &list), Ok(6 + 3 * 28));
    let many: Vec<u8> = (0..1025u16).flat_map(|v| key(A, v).to_bytes()).collect();
    assert_eq!(file_size(param(2), &many[..8 * 1024]), Ok(6 + 1024 * 28));
    assert_eq!(rule(file_size(param(2), &many)), Some((Rule::FileFull, 0)));
}

#[test]
fn the_methods_are_the_functions() {
    let pine = Pine::new(param(1)).unwrap();
    let file = FileBytes::new(small());
    let (mut contents, mut bodies) = (FileContents::new([0; 24]), FileBodies::new([0; 2]));
    assert_eq!(
        pine.file_read_into(&file, &mut contents, &mut bodies),
        Ok(())
    );
    let mut again = FileBytes::new([0; 46]);
    assert_eq!(
        pine.file_write_into(2, &contents, &bodies, &mut again),
        Ok(())
    );
    assert_eq!(again, file);
    assert_eq!(pine.file_len(2), 46);
    assert_eq!(pine.file_max(7), file_max(param(1), 7));
    assert_eq!(pine.file_size(&A), file_size(param(1), &A));
    let (mut one, mut other) = (FileBytes::new([0; 66]), [0; 66]);
    let share = Share::new([3]);
    assert_eq!(
        pine.file_add_into(key(B, 9), &file, &share, &mut one),
        file_add(param(1), key(B, 9), file.row(), &[3], &mut other)
    );
    assert_eq!(one.row(), other);
}

// some keys that meet: two controllers with the same valves
#[cfg(feature = "alloc")]
fn some_key(n: u64) -> FileKey {
    key(if n & 1 == 0 { A } else { B }, (n >> 1) as u16 % 5 * 127)
}

#[cfg(feature = "alloc")]
#[test]
fn a_day_file_holds_the_sums_of_each_key() {
    let pine = Pine::new(param(3)).unwrap();
    let mut file = pine.day_file().unwrap();
    assert_eq!(file.bytes(), [0, 0, 3, 0, 0, 0]);
    let mut sums: BTreeMap<FileKey, (u32, [u128; 3])> = BTreeMap::new();
    let mut state = 1u64;
    for n in 0..2000 {
        let share: [u64; 3] = std::array::from_fn(|_| {
            state = state
                .wrapping_mul(6364136223846793005)
                .wrapping_add(1442695040888963407);
            state % P
        });
        let key = some_key(state >> 33);
        if n % 7 == 0 {
            let before = file.bytes().to_vec();
            let spoilt = Share::new([share[0], P, share[2]]);
            assert_eq!(rule(file.add(key, &spoilt)), Some((Rule::Element, 1)));
            assert_eq!(file.bytes(), before);
            continue;
        }
        assert_eq!(file.add(key, &Share::new(share)), Ok(()));
        let (reports, sum) = sums.entry(key).or_default();
        *reports += 1;
        for (total, x) in sum.iter_mut().zip(share) {
            *total += u128::from(x);
        }
    }
    let rows = file.read().unwrap();
    assert_eq!(rows.entries().len(), sums.len());
    assert_eq!(file.bytes().len(), pine.file_len(sums.len()));
    // a map and a file go through their keys in the same order
    for (entry, (key, (reports, sum))) in rows.entries().zip(&sums) {
        let body: Vec<u64> = sum.iter().map(|s| (s % u128::from(P)) as u64).collect();
        assert_eq!((entry.key, entry.reports), (*key, *reports));
        assert_eq!(entry.body.row(), body);
        assert_eq!(rows.get(*key), Some(entry));
    }
    assert_eq!(rows.get(key([0; 6], 0)), None);
    let keys: Vec<u8> = sums.keys().rev().flat_map(|key| key.to_bytes()).collect();
    assert_eq!(pine.file_size(&keys), Ok(file.bytes().len() as u64));

    let again = pine.day_file_from(file.bytes().to_vec()).unwrap();
    assert_eq!(again.read().unwrap(), rows);
    let mut damaged = again.into_bytes();
    damaged.push(0);
    assert_eq!(
        rule(pine.day_file_from(damaged)),
        Some((Rule::FileLayout, 0))
    );
    assert_eq!(
        rule(pine.day_file_from(vec![255; 2])),
        Some((Rule::FileLayout, 0))
    );
    assert_eq!(
        rule(pine.day_file_from(Vec::new())),
        Some((Rule::FileLayout, 0))
    );
}

#[cfg(feature = "alloc")]
#[test]
fn a_full_file_takes_no_new_key() {
    let pine = Pine::new(param(1)).unwrap();
    let mut file = pine.day_file().unwrap();
    for valve in (0..1024).rev() {
        file.add(key(A, valve), &Share::new([u64::from(valve)]))
            .unwrap();
    }
    let bytes = file.bytes().to_vec();
    assert_eq!(bytes.len() as u64, pine.file_max(u32::MAX).unwrap());
    let share = Share::new([1]);
    assert_eq!(rule(file.add(key(B, 0), &share)), Some((Rule::FileFull, 0)));
    assert_eq!(file.bytes(), bytes);
    assert_eq!(file.add(key(A, 1000), &share), Ok(()));
    let mut full = pine.day_file_from(bytes).unwrap();
    assert_eq!(rule(full.add(key(B, 0), &share)), Some((Rule::FileFull, 0)));
}
