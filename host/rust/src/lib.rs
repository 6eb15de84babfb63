//! The label register for hosts in Rust: under each 64-bit key the exact bytes of a value of 0 to 4,088 bytes (65,528 with
//! large chunks), in a file or a file on persistent memory, which survive a power cut at any moment.
//!
//! ```no_run
//! use zitskvoze::{Change, Register};
//! # fn main() -> Result<(), zitskvoze::Error> {
//! let mut labels = Register::open("labels.img")?;
//! labels.put(4711, b"A+ 450 ml")?;                              // durable when it returns
//! labels.batch(&[Change::Put(4712, b"B- 450 ml"), Change::Delete(4711)])?;      // all or none
//! assert_eq!(labels.get(4712)?.as_deref(), Some(&b"B- 450 ml"[..]));
//! # Ok(()) }
//! ```
//!
//! Each put or delete of a key has a version, one above the key's highest. To change a value that others may change
//! too: look it up with its version, change it, put it for that version, and start again if another came first.
//!
//! ```no_run
//! use zitskvoze::{Error, Refusal, Register};
//! # fn main() -> Result<(), Error> {
//! # let mut labels = Register::open("labels.img")?;
//! loop {
//!     let Some((mut label, version)) = labels.get_with_version(4711)? else { break };
//!     // others may write here: another thread that shares the register, or another program while it is closed
//!     label.extend_from_slice(b", tested");
//!     match labels.put_at(4711, &label, version) {
//!         Err(Error::Refused(Refusal::OtherVersion)) => continue,
//!         done => break done?,
//!     }
//! }
//! # Ok(()) }
//! ```
//!
//! An absent key has version 0; but a deleted one that still has an entry has its delete's version, the highest in
//! [`Register::history`], until a cleaning drops its entries.
//!
//! It stands on the C archive: the proved calls of zitskvoze.h, and the file, in plain C, of zitskvoze_file.h. This crate
//! itself is not proved. A register is one writer's: the file is locked while it is open. No reference into the file is
//! handed out: values are copied.
mod error;
mod file;
mod sys;

pub use error::{Error, Refusal};

use std::ffi::{c_void, CStr};
use std::path::Path;
use std::time::Duration;

use error::refused;
use file::File;

/// The longest value, in bytes, of a register with small chunks.
pub const VALUE_MAX: usize = 4088;
/// The longest value, in bytes, of a register with large chunks.
pub const LARGE_VALUE_MAX: usize = 65528;
/// How many puts and deletes a batch may have.
pub const BATCH_ITEMS: usize = 16;

/// A version that no key has.
const NO_VERSION: u64 = u64::MAX;

/// How large the chunks of a register are: 4,096 or 65,536 bytes.
#[derive(Clone, Copy, Debug, PartialEq, Eq)]
pub enum ChunkSize {
    Small,
    Large,
}

impl ChunkSize {
    pub fn bytes(self) -> usize {
        match self {
            ChunkSize::Small => sys::CHUNK_BYTES,
            ChunkSize::Large => sys::LARGE_CHUNK_BYTES,
        }
    }

    /// The longest value, in bytes.
    pub fn value_max(self) -> usize {
        match self {
            ChunkSize::Small => VALUE_MAX,
            ChunkSize::Large => LARGE_VALUE_MAX,
        }
    }

    fn power(self) -> u64 {
        match self {
            ChunkSize::Small => sys::POWER_SMALL,
            ChunkSize::Large => sys::POWER_LARGE,
        }
    }
}

/// One item of a batch.
#[derive(Clone, Copy, Debug)]
pub enum Change<'a> {
    Put(u64, &'a [u8]),
    Delete(u64),
    /// Key, value, and the version that the key must have; each earlier item of the key in the batch adds one to it.
    PutAt(u64, &'a [u8], u64),
    /// Key, and the version that it must have.
    DeleteAt(u64, u64),
}

impl Change<'_> {
    fn key(&self) -> u64 {
        match *self {
            Change::Put(key, _) | Change::Delete(key) | Change::PutAt(key, ..) | Change::DeleteAt(key, _) => key,
        }
    }
}

/// How a register is opened.
#[derive(Clone, Copy, Debug, PartialEq, Eq)]
pub enum Access {
    /// With a lock that other readers share.
    Read,
    /// With a lock of its own.
    Write,
}

/// What is listed of a present key.
#[derive(Clone, Copy, Debug, PartialEq, Eq)]
pub struct Listed {
    pub version: u64,
    pub length: usize,
    /// The value stands in a block, and not in the log.
    pub block: bool,
}

/// What a chunk holds.
#[derive(Clone, Copy, Debug, PartialEq, Eq)]
pub enum Chunk {
    Free,
    /// Committed lines; entries that the register goes by, puts and deletes, and all others.
    Log { lines: u64, live: u64, deletes: u64, superseded: u64 },
    /// Blocks of so many bytes, and how many hold a present value.
    Data { block_bytes: u64, blocks: u64, used: u64 },
}

/// An entry of a key that still stands in the log.
#[derive(Clone, Copy, Debug, PartialEq, Eq)]
pub struct Entry {
    pub version: u64,
    /// A put, and not a delete.
    pub put: bool,
    /// The value stands in a block, and not in the log.
    pub block: bool,
    /// The register goes by it.
    pub current: bool,
    /// The first word of it in the image.
    pub place: u64,
}

/// What a cleaning did.
#[derive(Clone, Copy, Debug, Default, PartialEq, Eq)]
pub struct Cleaned {
    pub chunks: u64,
    pub entries: u64,
}

/// An open register. Dropping it closes the file and gives the lock back. A call that writes is carried out to its end
/// before it returns, so that nobody reads in the middle of it.
pub struct Register {
    file: File,
    record: Box<sys::Record>,
    table: Box<[u64]>,
    access: Access,
    /// A fence failed: the library is in the middle of a call for good. It would still answer look-ups, and where that
    /// was the call's last fence, with labels of which nobody knows whether they last.
    stopped: bool,
}

// Safety: the pointers in it are to memory that it owns or has mapped, and no thread has a part in what the calls do;
// those that take &self only read.
unsafe impl Send for Register {}
unsafe impl Sync for Register {}

/// The version of the library that is linked.
pub fn version() -> String {
    // Safety: the library answers a text that lasts.
    unsafe { CStr::from_ptr(sys::zkv_version()) }.to_string_lossy().into_owned()
}

/// From here on a file that is cut while it is in use, or a disk that is full, ends the program with a message and
/// status 2 instead of a signal; and SIGINT, SIGTERM and SIGHUP, where they are at their default, also remove a
/// register that is being made. Answers whether it could.
pub fn guard(program: &'static CStr) -> bool {
    // Safety: the text lasts, as the library keeps its address.
    unsafe { sys::zkv_file_guard(program.as_ptr()) != 0 }
}

impl Register {
    /// Makes an empty register of so many chunks (4 to 504) of 4,096 bytes and opens it to be written. A file that
    /// exists is left as it is, and the name is taken only once all is durable.
    pub fn create(path: impl AsRef<Path>, chunks: usize, station: Option<u64>, centre: Option<u64>) -> Result<Register, Error> {
        Register::create_with(path, chunks, ChunkSize::Small, station, centre)
    }

    /// The same, with chunks of the size named.
    pub fn create_with(
        path: impl AsRef<Path>, chunks: usize, size: ChunkSize, station: Option<u64>, centre: Option<u64>,
    ) -> Result<Register, Error> {
        right_version()?;
        if !sys::CHUNKS.contains(&chunks) {
            return Err(Refusal::ImageLength.into());
        }
        let file = File::new(path.as_ref(), chunks * size.bytes())?;
        let mut register = Register::over(file, Access::Write);
        let (at, bytes, words) = register.lent();
        let (s, c) = (station.unwrap_or(0), centre.unwrap_or(0));
        // Safety: what is lent is this register's, of these lengths.
        let begun = unsafe {
            sys::zkv_format(&mut *register.record, at, bytes, register.table.as_ptr(), words,
                size.power(), station.is_some().into(), s, centre.is_some().into(), c)
        };
        register.finish(begun)?;
        register.file.take_name()?;
        register.opened()
    }

    /// Opens a register to be written, and waits for its lock as long as it takes.
    pub fn open(path: impl AsRef<Path>) -> Result<Register, Error> {
        Register::open_with(path, Access::Write, None)
    }

    /// Opens a register, and waits for its lock at most so long (in whole seconds, rounded down). Where it is to be
    /// written and no chunk is free, as a power cut in a cleaning can leave it, one is freed first.
    pub fn open_with(path: impl AsRef<Path>, access: Access, wait: Option<Duration>) -> Result<Register, Error> {
        right_version()?;
        let file = File::open(path.as_ref(), access, wait)?;
        Register::over(file, access).opened()
    }

    fn opened(mut self) -> Result<Register, Error> {
        let (at, bytes, words) = self.lent();
        // Safety: as above.
        let report = unsafe { sys::zkv_open(&mut *self.record, at, bytes, self.table.as_mut_ptr(), words) };
        match report.kind {
            sys::OPENED if self.access == Access::Write => self.make_room().map(|()| self),
            sys::OPENED => Ok(self),
            sys::REFUSED => Err(refused(report.first)),
            _ => Err(Error::Odd(format!("an opening answered {report:?}"))),
        }
    }

    /// A commit is to be begun only while a free chunk stands, and a power cut in a cleaning can leave none: then a
    /// chunk is freed. A register that is full, of which none can be freed, is opened all the same.
    fn make_room(&mut self) -> Result<(), Error> {
        let (at, bytes, words) = self.lent();
        // Safety: as above; the context of the two functions is the file that is open.
        let report = unsafe {
            sys::zkv_make_room(&mut *self.record, at, bytes, self.table.as_mut_ptr(), words,
                sys::zkv_file_flush, sys::zkv_file_fence, self.file.raw().cast::<c_void>())
        };
        if report.kind == sys::IDLE {
            return Ok(());
        }
        match ended(report) {
            Ok(_) => self.file.confirm(),
            Err(Error::Refused(Refusal::NotCleanable | Refusal::NoSpace)) => Ok(()),
            Err(error) => Err(error),
        }
    }

    fn over(file: File, access: Access) -> Register {
        let record = Box::new(sys::Record { word: [0; sys::RECORD_WORDS] });
        Register { file, record, table: vec![0; sys::TABLE_WORDS].into_boxed_slice(), access, stopped: false }
    }

    fn lent(&self) -> (*mut u8, usize, usize) {
        (self.file.image(), self.file.bytes(), self.table.len())
    }

    /// Refused where a fence failed, as every call that writes is then.
    fn readable(&self) -> Result<(), Error> {
        if self.stopped {
            return Err(Refusal::Unfinished.into());
        }
        Ok(())
    }

    /// The bytes of a key, or None where it is absent.
    pub fn get(&self, key: u64) -> Result<Option<Vec<u8>>, Error> {
        self.readable()?;
        let (at, bytes, words) = self.lent();
        let (mut start, mut length) = (0, 0);
        // Safety: as above; the two numbers are this frame's.
        let number = unsafe {
            sys::zkv_look_up(&*self.record, at, bytes, self.table.as_ptr(), words, key, &mut start, &mut length)
        };
        self.found(number, start, length)
    }

    /// The bytes of a key and their version, by one look-up, or None where it is absent.
    pub fn get_with_version(&self, key: u64) -> Result<Option<(Vec<u8>, u64)>, Error> {
        self.readable()?;
        let (at, bytes, words) = self.lent();
        let (mut start, mut length, mut version) = (0, 0, 0);
        // Safety: as above; the three numbers are this frame's.
        let number = unsafe {
            sys::zkv_look_up_version(&*self.record, at, bytes, self.table.as_ptr(), words, key,
                &mut start, &mut length, &mut version)
        };
        Ok(self.found(number, start, length)?.map(|value| (value, version)))
    }

    /// What a look-up found that answered this number and this part of the image.
    fn found(&self, number: u64, start: u64, length: u64) -> Result<Option<Vec<u8>>, Error> {
        match number {
            0 => self.file.copy(start, length).map(Some),
            number if number == Refusal::KeyAbsent.number() => Ok(None),
            number => Err(refused(number)),
        }
    }

    /// Puts a value under a key; it lasts when this returns. Where no space is left, chunks are cleaned until there is.
    pub fn put(&mut self, key: u64, value: &[u8]) -> Result<(), Error> {
        self.batch(&[Change::Put(key, value)])
    }

    /// The same, but only if the key has this version, as [`Register::get_with_version`] answered it; else it is
    /// refused with [`Refusal::OtherVersion`], and nothing is changed. 0 is the version of a key without any entry; a
    /// deleted key that still has one has its delete's version. The new value has the next version; or 1, if the key
    /// was deleted and chunks were cleaned for space, which dropped its entries.
    pub fn put_at(&mut self, key: u64, value: &[u8], version: u64) -> Result<(), Error> {
        self.batch(&[Change::PutAt(key, value, version)])
    }

    /// Makes a key absent; answers whether it was present.
    pub fn delete(&mut self, key: u64) -> Result<bool, Error> {
        self.delete_by(Change::Delete(key))
    }

    /// The same, but only if the key has this version; else it is refused with [`Refusal::OtherVersion`], and nothing
    /// is changed. For an absent key it answers `Ok(false)`, as `delete` does, whatever the version.
    pub fn delete_at(&mut self, key: u64, version: u64) -> Result<bool, Error> {
        self.delete_by(Change::DeleteAt(key, version))
    }

    fn delete_by(&mut self, change: Change<'_>) -> Result<bool, Error> {
        match self.batch(&[change]) {
            Err(Error::Refused(Refusal::KeyAbsent)) => Ok(false),
            other => other.map(|()| true),
        }
    }

    /// Makes up to 16 changes (4,096 bytes of entries: 16 and the value for each) in their order, all or none of them,
    /// also where the power is cut. They last when this returns. Where no space is left, chunks are cleaned. The
    /// versions that they name are compared with those before any such cleaning, earlier items of the batch counted.
    pub fn batch(&mut self, changes: &[Change<'_>]) -> Result<(), Error> {
        if self.access == Access::Read {
            return Err(Error::ReadOnly);
        }
        if changes.is_empty() {
            return Ok(());
        }
        let full = Err(Refusal::NoSpace.into());
        let mut done = self.commit(changes);
        if done == full {
            let changes = self.with_versions_compared(changes); // before the first cleaning
            let mut freed = 0;
            while done == full && self.clean_one(&mut freed)?.is_some() {
                done = self.commit(&changes);
            }
        }
        done?;
        self.file.confirm()
    }

    /// The same changes, to be tried again after a cleaning. A cleaning may drop the entries of a deleted key, whose
    /// version is then 0 although nobody changed it: so an item with the right version no longer names any, and one
    /// with a wrong version names one that no cleaning makes right.
    fn with_versions_compared<'a>(&self, changes: &[Change<'a>]) -> Vec<Change<'a>> {
        let is_right = |item: usize, version: u64| {
            let key = changes[item].key();
            let committed = self.history(key).iter().map(|entry| entry.version).max().unwrap_or(0);
            let staged = changes[..item].iter().filter(|change| change.key() == key).count() as u64;
            version == committed + staged
        };
        let compared = |(item, change): (usize, &Change<'a>)| match *change {
            Change::PutAt(key, value, version) if is_right(item, version) => Change::Put(key, value),
            Change::PutAt(key, value, _) => Change::PutAt(key, value, NO_VERSION),
            Change::DeleteAt(key, version) if is_right(item, version) => Change::Delete(key),
            Change::DeleteAt(key, _) => Change::DeleteAt(key, NO_VERSION),
            unnamed => unnamed,
        };
        changes.iter().enumerate().map(compared).collect()
    }

    /// Stages and commits; a refusal leaves nothing staged.
    fn commit(&mut self, changes: &[Change<'_>]) -> Result<(), Error> {
        let (at, bytes, words) = self.lent();
        let mut done = Ok(());
        let mut staged = false;
        for change in changes {
            // Safety: as above; a value is no part of the image, as no reference into it is handed out.
            let begun = unsafe {
                match *change {
                    Change::Put(key, value) => sys::zkv_put(&mut *self.record, at, bytes, self.table.as_ptr(), words,
                        key, value.as_ptr(), value.len()),
                    Change::Delete(key) => sys::zkv_delete(&mut *self.record, at, bytes, self.table.as_ptr(), words, key),
                    Change::PutAt(key, value, version) => sys::zkv_put_at(&mut *self.record, at, bytes,
                        self.table.as_ptr(), words, key, value.as_ptr(), value.len(), version),
                    Change::DeleteAt(key, version) => sys::zkv_delete_at(&mut *self.record, at, bytes,
                        self.table.as_ptr(), words, key, version),
                }
            };
            done = self.finish(begun).map(|_| ());
            if done.is_err() {
                break;
            }
            staged = true;
        }
        if done.is_ok() {
            // Safety: as above.
            let begun = unsafe { sys::zkv_commit(&mut *self.record, at, bytes, self.table.as_ptr(), words) };
            done = self.finish(begun).map(|_| ());
        }
        if done.is_err() && staged {
            // Safety: as above. It is refused where a fence failed, and then nothing is to be forgotten.
            unsafe { sys::zkv_abandon(&mut *self.record, at, bytes, self.table.as_ptr(), words) };
        }
        done
    }

    /// Carries a begun call out to its end; answers the number that the end reports.
    fn finish(&mut self, begun: sys::Report) -> Result<u64, Error> {
        let (at, bytes, words) = self.lent();
        // Safety: as above; the context of the two functions is the file that is open.
        let report = unsafe {
            sys::zkv_finish(&mut *self.record, at, bytes, self.table.as_mut_ptr(), words, begun,
                sys::zkv_file_flush, sys::zkv_file_fence, self.file.raw().cast::<c_void>())
        };
        self.stopped |= report.kind == sys::FENCE;
        ended(report)
    }

    fn begin_cleaning(&mut self, chunk: u64) -> sys::Report {
        let (at, bytes, words) = self.lent();
        // Safety: as above.
        unsafe { sys::zkv_clean(&mut *self.record, at, bytes, self.table.as_ptr(), words, chunk as usize) }
    }

    /// Cleans the chunk that is worth it most, else one behind `freed` of blocks of which none is in use; None where
    /// there is none.
    fn clean_one(&mut self, freed: &mut u64) -> Result<Option<u64>, Error> {
        let (at, bytes, words) = self.lent();
        // Safety: as above.
        let chosen = unsafe { sys::zkv_choose(&*self.record, at, bytes, self.table.as_ptr(), words) };
        let begun = if chosen.kind == sys::CHOSEN { self.begin_cleaning(chosen.first) } else { chosen };
        if begun.kind == sys::BEGUN {
            return self.finish(begun).map(Some);
        }
        match refused(begun.first) {
            Error::Refused(Refusal::NotCleanable | Refusal::NoSpace) => self.free_one(freed),
            error => Err(error),
        }
    }

    /// Frees a chunk of blocks of which none is in use, as choosing names log chunks alone. A put that is tried again may
    /// take the freed chunk again, so each is freed once.
    fn free_one(&mut self, freed: &mut u64) -> Result<Option<u64>, Error> {
        let (at, bytes, words) = self.lent();
        // Safety: as above.
        let empty = unsafe {
            sys::zkv_empty_chunk(&*self.record, at, bytes, self.table.as_ptr(), words, *freed as usize + 1)
        };
        if empty.kind != sys::CHOSEN {
            return Ok(None);
        }
        *freed = empty.first;
        let begun = self.begin_cleaning(empty.first);
        self.finish(begun).map(Some)
    }

    /// Frees the space of superseded and deleted labels, chunk by chunk, until no cleaning is worth it.
    pub fn clean(&mut self) -> Result<Cleaned, Error> {
        if self.access == Access::Read {
            return Err(Error::ReadOnly);
        }
        let mut done = Cleaned::default();
        let mut freed = 0;
        while let Some(entries) = self.clean_one(&mut freed)? {
            done.chunks += 1;
            done.entries += entries;
        }
        self.file.confirm()?;
        Ok(done)
    }

    /// The present keys, rising.
    pub fn keys(&self) -> Result<Vec<u64>, Error> {
        self.readable()?;
        let mut keys = Vec::new();
        loop {
            let (at, bytes, words) = self.lent();
            let mut count = 0;
            // Safety: as above; the list has the room that is told.
            let number = unsafe {
                sys::zkv_list_keys(&*self.record, at, bytes, self.table.as_ptr(), words, keys.as_mut_ptr(), keys.len(), &mut count)
            };
            if number != 0 {
                return Err(refused(number));
            }
            if count as usize == keys.len() {
                return Ok(keys);
            }
            keys = vec![0; count as usize];
        }
    }

    /// Every label, by rising key.
    pub fn iter(&self) -> Result<Labels<'_>, Error> {
        Ok(Labels { register: self, keys: self.keys()?.into_iter() })
    }

    /// Version, length and place of a key's value, or None where it is absent.
    pub fn listed(&self, key: u64) -> Result<Option<Listed>, Error> {
        self.readable()?;
        let (at, bytes, words) = self.lent();
        let (mut version, mut length, mut block) = (0, 0, 0);
        // Safety: as above.
        let number = unsafe {
            sys::zkv_list_key(&*self.record, at, bytes, self.table.as_ptr(), words, key, &mut version, &mut length, &mut block)
        };
        match number {
            0 => Ok(Some(Listed { version, length: length as usize, block: block != 0 })),
            number if number == Refusal::KeyAbsent.number() => Ok(None),
            number => Err(refused(number)),
        }
    }

    /// The known keys, deleted ones that still have an entry included.
    pub fn known_keys(&self) -> u64 {
        // Safety: as above.
        unsafe { sys::zkv_keys(&*self.record) }
    }

    pub fn chunk_size(&self) -> ChunkSize {
        // Safety: as above.
        match unsafe { sys::zkv_power(self.file.image(), self.file.bytes()) } {
            sys::POWER_LARGE => ChunkSize::Large,
            _ => ChunkSize::Small,
        }
    }

    pub fn chunks(&self) -> usize {
        self.file.bytes() / self.chunk_size().bytes()
    }

    pub fn free_chunks(&self) -> u64 {
        // Safety: as above.
        unsafe { sys::zkv_free_chunks(self.file.image(), self.file.bytes()) }
    }

    /// The committed lines (64 bytes) of the log.
    pub fn lines_used(&self) -> u64 {
        // Safety: as above.
        unsafe { sys::zkv_lines_used(self.file.image(), self.file.bytes()) }
    }

    /// The station number that the header names.
    pub fn station(&self) -> Option<u64> {
        let mut number = 0;
        // Safety: as above.
        let given = unsafe { sys::zkv_station(self.file.image(), self.file.bytes(), &mut number) };
        (given != 0).then_some(number)
    }

    /// The centre number that the header names.
    pub fn centre(&self) -> Option<u64> {
        let mut number = 0;
        // Safety: as above.
        let given = unsafe { sys::zkv_centre(self.file.image(), self.file.bytes(), &mut number) };
        (given != 0).then_some(number)
    }

    /// What a chunk holds, from chunk 1 on.
    pub fn chunk(&self, chunk: usize) -> Result<Chunk, Error> {
        let (at, bytes, words) = self.lent();
        // Safety: as above.
        let row = unsafe { sys::zkv_chunk(&*self.record, at, bytes, self.table.as_ptr(), words, chunk) };
        if row.refused != 0 {
            return Err(refused(row.refused));
        }
        Ok(match row.role {
            1 => Chunk::Log { lines: row.size, live: row.live, deletes: row.deletes, superseded: row.superseded },
            2 => Chunk::Data { block_bytes: 256 * row.size, blocks: row.blocks, used: row.used },
            _ => Chunk::Free,
        })
    }

    /// The entries of a key that still stand in the log, by chunk, then offset.
    pub fn history(&self, key: u64) -> Vec<Entry> {
        let (mut words, mut count) = (Vec::new(), 64);
        while words.len() < count * sys::ENTRY_WORDS {
            words.resize(count * sys::ENTRY_WORDS, 0);
            // Safety: as above.
            count = unsafe { sys::zkv_entries(self.file.image(), self.file.bytes(), key, 0, words.as_mut_ptr(), words.len()) };
        }
        let entry = |e: &[u64]| Entry { place: e[0], put: e[1] == 1, version: e[2], block: e[3] != 0, current: e[5] != 0 };
        words.chunks_exact(sys::ENTRY_WORDS).take(count).map(entry).collect()
    }

    /// Whether the file is as long as it was and, where it is written, still the name's. Every write asks it itself.
    pub fn confirm(&self) -> Result<(), Error> {
        self.file.confirm()
    }
}

/// The labels of a register, by rising key.
pub struct Labels<'a> {
    register: &'a Register,
    keys: std::vec::IntoIter<u64>,
}

impl Iterator for Labels<'_> {
    type Item = Result<(u64, Vec<u8>), Error>;

    fn next(&mut self) -> Option<Self::Item> {
        let key = self.keys.next()?;
        Some(self.register.get(key).and_then(|value| match value {
            Some(value) => Ok((key, value)),
            None => Err(Refusal::KeyAbsent.into()),
        }))
    }

    fn size_hint(&self) -> (usize, Option<usize>) {
        self.keys.size_hint()
    }
}

impl ExactSizeIterator for Labels<'_> {}

/// What the report says that a begun call was carried out to: the number of its end.
fn ended(report: sys::Report) -> Result<u64, Error> {
    match report.kind {
        sys::END => Ok(report.first),
        sys::REFUSED => Err(refused(report.first)),
        sys::FENCE => Err(Error::NotDurable),
        _ => Err(Error::Odd(format!("a call ended with {report:?}"))),
    }
}

fn right_version() -> Result<(), Error> {
    match version() {
        v if v == sys::VERSION => Ok(()),
        v => Err(Error::Version(v)),
    }
}

#[cfg(test)]
mod tests {
    /// The C compiler's sizes and places, as tests/rust.sh finds them, are those of sys.rs.
    #[test]
    fn layout() {
        use crate::sys::{ChunkRow, File, Record, Report, Wait, ENTRY_WORDS};
        use std::mem::{offset_of, size_of};
        let Ok(wanted) = std::env::var("ZKV_LAYOUT") else { return };
        let found = [
            size_of::<Record>(),
            size_of::<Report>(),
            size_of::<ChunkRow>(),
            ENTRY_WORDS,
            size_of::<Wait>(),
            size_of::<File>(),
            offset_of!(File, bytes),
            offset_of!(File, name),
            offset_of!(File, length),
            offset_of!(File, usage),
            offset_of!(File, page),
            offset_of!(File, device),
            offset_of!(File, made),
            offset_of!(File, wanted),
        ];
        assert_eq!(wanted, found.map(|n| n.to_string()).join(" "));
    }
}
