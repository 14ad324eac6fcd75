//! The day's file: a server's aggregates by controller and valve, in one row of bytes (docs/PINE.md of the project, "The
//! day's file").
use crate::calls::result;
use crate::error::Error;
#[cfg(feature = "alloc")]
use crate::error::Rule;
use crate::ffi;
use crate::param::PineParam;
use crate::pine::Pine;
#[cfg(feature = "alloc")]
use crate::rows::Aggregate;
use crate::rows::{FileBodies, FileBytes, FileContents, Share};
use crate::{FILE_ENTRY_LEN, FILE_HEADER_LEN, FILE_KEY_LEN};
#[cfg(feature = "alloc")]
use alloc::{vec, vec::Vec};
#[cfg(feature = "alloc")]
use core::mem::swap;

/// Whose reports are added up in one entry. Keys are in order as a file has them: by the address, its bytes compared
/// from the first on, then by the valve.
///
/// ```
/// use jihmeto_pine::FileKey;
///
/// let key = FileKey { address: [2, 0, 0, 0, 0, 9], valve: 258 };
/// assert_eq!(key.to_bytes(), [2, 0, 0, 0, 0, 9, 2, 1]);
/// assert_eq!(FileKey::from_bytes(key.to_bytes()), key);
/// assert!(key < FileKey { valve: 511, ..key });
/// ```
#[derive(Clone, Copy, Debug, PartialEq, Eq, PartialOrd, Ord, Hash)]
pub struct FileKey {
    /// The controller's.
    pub address: [u8; 6],
    /// The number of one of its valves.
    pub valve: u16,
}

impl FileKey {
    /// Its eight bytes in a file: the address, then the valve, low byte first.
    #[must_use]
    pub const fn to_bytes(self) -> [u8; FILE_KEY_LEN] {
        let [a, b, c, d, e, f] = self.address;
        let [low, high] = self.valve.to_le_bytes();
        [a, b, c, d, e, f, low, high]
    }

    /// The key of eight bytes.
    #[must_use]
    pub const fn from_bytes(bytes: [u8; FILE_KEY_LEN]) -> FileKey {
        let [a, b, c, d, e, f, low, high] = bytes;
        FileKey {
            address: [a, b, c, d, e, f],
            valve: u16::from_le_bytes([low, high]),
        }
    }
}

/// Splits a file, of any length, into its contents (12 bytes an entry), without the six bytes before them, and the
/// elements of its bodies (`dimension` an entry). The entries are counted by the file's first two bytes, 0 if it has
/// fewer.
///
/// # Errors
///
/// Those of [`check_param`](crate::check_param), then rules 7, 14, in this order: [`RowLen`](crate::Rule::RowLen) of the
/// contents and the bodies (places 2 and 3), [`FileLayout`](crate::Rule::FileLayout).
pub fn file_read(
    param: PineParam,
    file: &[u8],
    contents: &mut [u8],
    bodies: &mut [u64],
) -> Result<(), Error> {
    // SAFETY: each pointer is a slice's own, with that slice's length; the borrows keep them apart.
    result(unsafe {
        ffi::pine_file_read(
            param.into(),
            file.as_ptr(),
            file.len(),
            contents.as_mut_ptr(),
            contents.len(),
            bodies.as_mut_ptr(),
            bodies.len(),
        )
    })
}

/// Writes a file of `count` entries, 6 + count · (12 + 8 · `dimension`) bytes, from its contents and the elements of its
/// bodies.
///
/// # Errors
///
/// Those of [`check_param`](crate::check_param), then rules 7, 14, in this order: [`RowLen`](crate::Rule::RowLen),
/// [`FileLayout`](crate::Rule::FileLayout), of an element that is not below p too.
pub fn file_write(
    param: PineParam,
    count: u64,
    contents: &[u8],
    bodies: &[u64],
    file: &mut [u8],
) -> Result<(), Error> {
    // SAFETY: each pointer is a slice's own, with that slice's length; the borrows keep them apart.
    result(unsafe {
        ffi::pine_file_write(
            param.into(),
            count,
            contents.as_ptr(),
            contents.len(),
            bodies.as_ptr(),
            bodies.len(),
            file.as_mut_ptr(),
            file.len(),
        )
    })
}

fn len(given: ffi::FileLen) -> Result<u64, Error> {
    result(given.answer)?;
    Ok(given.len)
}

/// The greatest length that a file begun empty can have after so many added reports:
/// 6 + min(reports, 1024) · (12 + 8 · `dimension`).
///
/// # Errors
///
/// Those of [`check_param`](crate::check_param).
pub fn file_max(param: PineParam, reports: u32) -> Result<u64, Error> {
    // SAFETY: numbers by value.
    len(unsafe { ffi::pine_file_max(param.into(), reports) })
}

/// Adds a report of one key to a file: the key's count is one more, and the share (`dimension`) is added to its body; a
/// new key starts from no reports and zeros. No other entry or body changes. The new file is written into `second`, which
/// has the old one's length and 12 + 8 · `dimension` bytes more, and its length is given; the bytes past it stay as they
/// were.
///
/// # Errors
///
/// Those of [`check_param`](crate::check_param), then rules 7, 14, 12, 15, 16, in this order:
/// [`RowLen`](crate::Rule::RowLen) of the share and the second row (places 2 and 3),
/// [`FileLayout`](crate::Rule::FileLayout) of the old file, [`Element`](crate::Rule::Element) of the share,
/// [`FileFull`](crate::Rule::FileFull), [`ReportCount`](crate::Rule::ReportCount).
pub fn file_add(
    param: PineParam,
    key: FileKey,
    old: &[u8],
    share: &[u64],
    second: &mut [u8],
) -> Result<u64, Error> {
    let key = ffi::FileKey {
        bytes: key.to_bytes(),
    };
    // SAFETY: each pointer is a slice's own, with that slice's length; the borrows keep them apart.
    len(unsafe {
        ffi::pine_file_add(
            param.into(),
            key,
            old.as_ptr(),
            old.len(),
            share.as_ptr(),
            share.len(),
            second.as_mut_ptr(),
            second.len(),
        )
    })
}

/// The exact length of the file that reports of these keys (eight bytes each, in the order in which they will be added)
/// make of one begun empty.
///
/// # Errors
///
/// Those of [`check_param`](crate::check_param), then rule 7, [`RowLen`](crate::Rule::RowLen), where the length is no
/// multiple of 8; then what adding would meet first, rule 15 or 16: [`FileFull`](crate::Rule::FileFull),
/// [`ReportCount`](crate::Rule::ReportCount).
pub fn file_size(param: PineParam, keys: &[u8]) -> Result<u64, Error> {
    // SAFETY: the pointer is the slice's own, with its length.
    len(unsafe { ffi::pine_file_size(param.into(), keys.as_ptr(), keys.len()) })
}

/// The calls on a day's file.
impl Pine {
    /// The bytes that one more entry takes.
    const fn entry_len(&self) -> usize {
        FILE_ENTRY_LEN + 8 * self.dimension()
    }

    /// The length of a file of so many entries.
    #[must_use]
    pub const fn file_len(&self, entries: usize) -> usize {
        FILE_HEADER_LEN + entries * self.entry_len()
    }

    /// Splits a file into its contents and its bodies.
    ///
    /// # Errors
    ///
    /// Rules 7, 14, in this order: [`RowLen`](crate::Rule::RowLen) of the contents and the bodies (places 2 and 3),
    /// [`FileLayout`](crate::Rule::FileLayout).
    pub fn file_read_into(
        &self,
        file: &FileBytes<impl AsRef<[u8]>>,
        contents: &mut FileContents<impl AsMut<[u8]>>,
        bodies: &mut FileBodies<impl AsMut<[u64]>>,
    ) -> Result<(), Error> {
        file_read(
            self.param(),
            file.row(),
            contents.row_mut(),
            bodies.row_mut(),
        )
    }

    /// Writes a file of `count` entries, [`file_len`](Pine::file_len) bytes.
    ///
    /// # Errors
    ///
    /// Rules 7, 14, in this order: [`RowLen`](crate::Rule::RowLen), [`FileLayout`](crate::Rule::FileLayout).
    pub fn file_write_into(
        &self,
        count: u64,
        contents: &FileContents<impl AsRef<[u8]>>,
        bodies: &FileBodies<impl AsRef<[u64]>>,
        file: &mut FileBytes<impl AsMut<[u8]>>,
    ) -> Result<(), Error> {
        file_write(
            self.param(),
            count,
            contents.row(),
            bodies.row(),
            file.row_mut(),
        )
    }

    /// The greatest length that a file begun empty can have after so many added reports.
    ///
    /// # Errors
    ///
    /// None: the inputs are accepted.
    pub fn file_max(&self, reports: u32) -> Result<u64, Error> {
        file_max(self.param(), reports)
    }

    /// Adds a report of one key to a file: see [`file_add`](crate::file_add()). The new file is the beginning of the
    /// second row, as long as the number that is given.
    ///
    /// # Errors
    ///
    /// Rules 7, 14, 12, 15, 16, in this order: [`RowLen`](crate::Rule::RowLen) of the share and the second row (places 2
    /// and 3), [`FileLayout`](crate::Rule::FileLayout), [`Element`](crate::Rule::Element) of the share,
    /// [`FileFull`](crate::Rule::FileFull), [`ReportCount`](crate::Rule::ReportCount).
    pub fn file_add_into(
        &self,
        key: FileKey,
        old: &FileBytes<impl AsRef<[u8]>>,
        share: &Share<impl AsRef<[u64]>>,
        second: &mut FileBytes<impl AsMut<[u8]>>,
    ) -> Result<u64, Error> {
        file_add(self.param(), key, old.row(), share.row(), second.row_mut())
    }

    /// The exact length of the file that reports of these keys make, eight bytes each.
    ///
    /// # Errors
    ///
    /// Rule 7, then 15 or 16: [`RowLen`](crate::Rule::RowLen), [`FileFull`](crate::Rule::FileFull),
    /// [`ReportCount`](crate::Rule::ReportCount).
    pub fn file_size(&self, keys: &[u8]) -> Result<u64, Error> {
        file_size(self.param(), keys)
    }

    /// A file begun empty.
    ///
    /// # Errors
    ///
    /// None: the inputs are accepted, and the row has its length.
    #[cfg(feature = "alloc")]
    pub fn day_file(&self) -> Result<DayFile, Error> {
        let mut file = FileBytes::new(vec![0; self.file_len(0)]);
        let (contents, bodies) = (FileContents::new([]), FileBodies::new([]));
        self.file_write_into(0, &contents, &bodies, &mut file)?;
        Ok(DayFile {
            pine: *self,
            bytes: file.into_row(),
            second: Vec::new(),
        })
    }

    /// A file from its bytes.
    ///
    /// # Errors
    ///
    /// Rule 14: [`FileLayout`](crate::Rule::FileLayout).
    #[cfg(feature = "alloc")]
    pub fn day_file_from(&self, bytes: Vec<u8>) -> Result<DayFile, Error> {
        let mut second = vec![0; bytes.len() + self.entry_len()];
        let key = FileKey::from_bytes([0; FILE_KEY_LEN]);
        let zeros = vec![0; self.dimension()];
        // whether a report of any key could be added says whether they are a file
        match file_add(self.param(), key, &bytes, &zeros, &mut second) {
            Err(refusal) if refusal.rule == Rule::FileLayout => Err(refusal),
            _ => Ok(DayFile {
                pine: *self,
                bytes,
                second,
            }),
        }
    }
}

/// A day's file that grows as reports are added to it.
///
/// It holds its bytes twice: adding writes the new file beside the old one, and then the two are swapped. So a refused
/// adding leaves the file as it was.
///
/// ```
/// # fn main() -> Result<(), jihmeto_pine::Error> {
/// use jihmeto_pine::{FileKey, Pine, PineParam, Share};
///
/// let pine = Pine::new(PineParam::standard(4096, 2, 8, 16, 2, 10, 10))?;
/// let mut file = pine.day_file()?;
/// let valve = FileKey { address: [2, 0, 0, 0, 0, 9], valve: 7 };
/// file.add(valve, &Share::new([384, 512]))?;
/// file.add(valve, &Share::new([1, 2]))?;
/// let rows = file.read()?;
/// let entry = rows.get(valve).expect("it has reports");
/// assert_eq!((entry.reports, entry.body.row()), (2, &[385, 514][..]));
/// # Ok(())
/// # }
/// ```
#[cfg(feature = "alloc")]
#[derive(Clone, Debug)]
pub struct DayFile {
    pine: Pine,
    bytes: Vec<u8>,
    second: Vec<u8>,
}

#[cfg(feature = "alloc")]
impl DayFile {
    /// Its bytes.
    #[must_use]
    pub fn bytes(&self) -> &[u8] {
        &self.bytes
    }

    /// Its bytes, and it no more.
    #[must_use]
    pub fn into_bytes(self) -> Vec<u8> {
        self.bytes
    }

    /// Adds a report of one key.
    ///
    /// # Errors
    ///
    /// Rules 7, 12, 15, 16, in this order: [`RowLen`](crate::Rule::RowLen) of the share (place 2),
    /// [`Element`](crate::Rule::Element), [`FileFull`](crate::Rule::FileFull),
    /// [`ReportCount`](crate::Rule::ReportCount).
    pub fn add(&mut self, key: FileKey, share: &Share<impl AsRef<[u64]>>) -> Result<(), Error> {
        let room = self.bytes.len() + self.pine.entry_len();
        self.second.resize(room, 0);
        let param = self.pine.param();
        let len = file_add(param, key, &self.bytes, share.row(), &mut self.second)?;
        self.second.truncate(len as usize);
        swap(&mut self.bytes, &mut self.second);
        Ok(())
    }

    /// Its entries, read.
    ///
    /// # Errors
    ///
    /// None: it is a file, and the rows have their lengths.
    pub fn read(&self) -> Result<FileRows, Error> {
        let count = usize::from(u16::from_le_bytes([self.bytes[0], self.bytes[1]]));
        let dimension = self.pine.dimension();
        let mut rows = FileRows {
            dimension,
            contents: FileContents::new(vec![0; count * FILE_ENTRY_LEN]),
            bodies: FileBodies::new(vec![0; count * dimension]),
        };
        let file = FileBytes::new(&self.bytes);
        self.pine
            .file_read_into(&file, &mut rows.contents, &mut rows.bodies)?;
        Ok(rows)
    }
}

/// What [`DayFile::read`] gives: the contents and the bodies of a file.
#[cfg(feature = "alloc")]
#[derive(Clone, Debug, PartialEq, Eq)]
#[must_use]
pub struct FileRows {
    dimension: usize,
    contents: FileContents<Vec<u8>>,
    bodies: FileBodies<Vec<u64>>,
}

/// An entry of a file.
#[cfg(feature = "alloc")]
#[derive(Clone, Copy, Debug, PartialEq, Eq)]
pub struct FileEntry<'a> {
    /// Whose reports they are.
    pub key: FileKey,
    /// How many were added.
    pub reports: u32,
    /// The sum of their shares.
    pub body: Aggregate<&'a [u64]>,
}

#[cfg(feature = "alloc")]
impl FileRows {
    /// The contents, 12 bytes an entry.
    pub fn contents(&self) -> FileContents<&[u8]> {
        FileContents::new(self.contents.row())
    }

    /// The bodies, dimension elements an entry.
    pub fn bodies(&self) -> FileBodies<&[u64]> {
        FileBodies::new(self.bodies.row())
    }

    /// The entries, in the order of their keys.
    #[must_use]
    pub fn entries(&self) -> impl ExactSizeIterator<Item = FileEntry<'_>> {
        let contents = self.contents.row().chunks_exact(FILE_ENTRY_LEN);
        let bodies = self.bodies.row().chunks_exact(self.dimension);
        contents.zip(bodies).map(|(contents, body)| {
            let (key, reports) = contents.split_at(FILE_KEY_LEN);
            FileEntry {
                key: FileKey::from_bytes(core::array::from_fn(|i| key[i])),
                reports: u32::from_le_bytes(core::array::from_fn(|i| reports[i])),
                body: Aggregate::new(body),
            }
        })
    }

    /// The entry of a key, if it has one.
    #[must_use]
    pub fn get(&self, key: FileKey) -> Option<FileEntry<'_>> {
        self.entries().find(|entry| entry.key == key)
    }
}
