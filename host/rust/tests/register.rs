//! The register through the safe interface: what is put comes back, to the byte, after reopening; batches; versions;
//! refusals; cleaning, also one that was cut off; locks.
use std::collections::BTreeMap;
use std::fs;
use std::path::{Path, PathBuf};
use std::sync::mpsc;
use std::thread;
use std::time::{Duration, Instant};

use zitskvoze::{Access, Change, Chunk, ChunkSize, Error, Refusal, Register, LARGE_VALUE_MAX, VALUE_MAX};

/// A folder of its own, removed at the end.
struct Folder(PathBuf);

impl Folder {
    fn new(name: &str) -> Folder {
        let folder = std::env::temp_dir().join(format!("zitskvoze-{name}-{}", std::process::id()));
        fs::create_dir(&folder).unwrap();
        Folder(folder)
    }

    fn file(&self) -> PathBuf {
        self.0.join("labels.img")
    }
}

impl Drop for Folder {
    fn drop(&mut self) {
        let _ = fs::remove_dir_all(&self.0);
    }
}

/// Numbers that look drawn (xorshift).
struct Draw(u64);

impl Draw {
    fn below(&mut self, end: u64) -> u64 {
        self.0 ^= self.0 << 13;
        self.0 ^= self.0 >> 7;
        self.0 ^= self.0 << 17;
        self.0 % end
    }

    fn value(&mut self) -> Vec<u8> {
        let length = [0, 1, 16, 256, 257, VALUE_MAX as u64, self.0 % 300][self.below(7) as usize];
        (0..length).map(|_| self.below(256) as u8).collect()
    }
}

fn all(register: &Register) -> BTreeMap<u64, Vec<u8>> {
    let labels = register.iter().unwrap();
    let told = labels.len();
    let found: Vec<_> = labels.map(Result::unwrap).collect();
    assert_eq!(told, found.len());
    assert!(found.windows(2).all(|w| w[0].0 < w[1].0));
    found.into_iter().collect()
}

#[test]
fn versions_agree() {
    assert_eq!(zitskvoze::version(), "1.0");
}

#[test]
fn labels_come_back() {
    let folder = Folder::new("back");
    let mut draw = Draw(1);
    let mut book = BTreeMap::new();
    let mut register = Register::create(folder.file(), 120, Some(7), None).unwrap();
    for round in 0..300 {
        let key = [draw.below(20), u64::MAX - draw.below(3)][draw.below(2) as usize];
        if draw.below(4) == 0 {
            assert_eq!(register.delete(key), Ok(book.remove(&key).is_some()));
        } else {
            let value = draw.value();
            register.put(key, &value).unwrap();
            book.insert(key, value);
        }
        assert_eq!(register.get(key).unwrap(), book.get(&key).cloned());
        if round % 50 == 49 {
            assert_eq!(all(&register), book);
            drop(register);
            register = Register::open(folder.file()).unwrap();
        }
    }
    assert_eq!(all(&register), book);
    assert_eq!(register.keys().unwrap(), book.keys().copied().collect::<Vec<_>>());
    for (key, value) in &book {
        let listed = register.listed(*key).unwrap().unwrap();
        assert_eq!((listed.length, listed.block), (value.len(), value.len() > 256));
    }
    assert_eq!(register.listed(999), Ok(None));
    assert_eq!(register.chunks(), 120);
    assert!(register.known_keys() as usize >= book.len());
    let lines = register.lines_used();
    let cleaned = register.clean().unwrap();
    assert!(cleaned.chunks > 0 && register.lines_used() < lines);
    assert_eq!(all(&register), book);
}

#[test]
fn batches_are_all_or_none() {
    let folder = Folder::new("batch");
    let mut register = Register::create(folder.file(), 8, None, None).unwrap();
    register.batch(&[Change::Put(1, b"one"), Change::Put(2, b"two"), Change::Delete(1), Change::Put(3, b"")]).unwrap();
    let book = BTreeMap::from([(2, b"two".to_vec()), (3, vec![])]);
    assert_eq!(all(&register), book);
    register.batch(&[]).unwrap();
    let many: Vec<_> = (10..27).map(|key| Change::Put(key, b"x")).collect();
    assert_eq!(register.batch(&many), Err(Error::Refused(Refusal::BatchFull)));
    assert_eq!(register.batch(&[Change::Put(9, b"x"), Change::Delete(77)]), Err(Error::Refused(Refusal::KeyAbsent)));
    assert_eq!(register.batch(&[Change::Put(9, b"x"), Change::Put(8, &[0; VALUE_MAX + 1])]), Err(Error::Refused(Refusal::TooLong)));
    assert_eq!(all(&register), book);
    register.batch(&many[..16]).unwrap(); // nothing of what was refused is left staged
    assert_eq!(register.keys().unwrap().len(), 18);
}

/// The highest version of the entries that a key still has, 0 where it has none.
fn highest(register: &Register, key: u64) -> u64 {
    register.history(key).iter().map(|entry| entry.version).max().unwrap_or(0)
}

#[test]
fn a_put_or_delete_may_be_for_a_version() {
    let folder = Folder::new("version");
    let other = Err(Error::Refused(Refusal::OtherVersion));
    let mut register = Register::create(folder.file(), 8, None, None).unwrap();
    assert_eq!(register.get_with_version(70), Ok(None));
    for version in [1, 70, u64::MAX] {
        assert_eq!(register.put_at(70, b"one", version), other, "an unknown key has version 0");
    }
    register.put_at(70, b"one", 0).unwrap();
    assert_eq!(register.get_with_version(70), Ok(Some((b"one".to_vec(), 1))));
    register.put(70, b"two").unwrap();
    assert_eq!(register.get_with_version(70), Ok(Some((b"two".to_vec(), 2))));
    let before = fs::read(folder.file()).unwrap();
    for version in [0, 1, 3, 70, 2 + (1 << 20), 2 + (1 << 32), u64::MAX] {
        assert_eq!(register.put_at(70, b"three", version), other);
        assert_eq!(register.put_at(70, &[3; 1000], version), other);
        assert_eq!(register.delete_at(70, version), Err(Error::Refused(Refusal::OtherVersion)));
    }
    assert_eq!(register.put_at(70, &[0; VALUE_MAX + 1], 1), Err(Error::Refused(Refusal::TooLong)));
    assert_eq!(fs::read(folder.file()).unwrap(), before, "what was refused did not happen");
    register.put_at(70, &[3; 1000], 2).unwrap();
    assert_eq!(register.get_with_version(70), Ok(Some((vec![3; 1000], 3))));

    drop(register);
    let mut reader = Register::open_with(folder.file(), Access::Read, None).unwrap();
    assert_eq!(reader.get_with_version(70), Ok(Some((vec![3; 1000], 3))));
    assert_eq!((reader.put_at(70, b"", 3), reader.delete_at(70, 3)), (Err(Error::ReadOnly), Err(Error::ReadOnly)));
    drop(reader);
    let mut register = Register::open(folder.file()).unwrap();
    register.put_at(70, b"", 3).unwrap();
    assert_eq!(register.get_with_version(70), Ok(Some((vec![], 4))));
    assert_eq!(register.delete_at(70, 4), Ok(true));
    assert_eq!(register.get_with_version(70), Ok(None));

    // a deleted key has its delete's version while it has an entry, also after reopening
    drop(register);
    let mut register = Register::open(folder.file()).unwrap();
    assert_eq!(highest(&register, 70), 5);
    for version in [0, 4, 5, 6] {
        assert_eq!(register.delete_at(70, version), Ok(false), "an absent key is absent for every version");
    }
    for version in [0, 4, 6] {
        assert_eq!(register.put_at(70, b"six", version), other);
    }
    register.put_at(70, b"six", 5).unwrap();
    assert_eq!(register.get_with_version(70), Ok(Some((b"six".to_vec(), 6))));
    assert_eq!(register.delete_at(70, 6), Ok(true));
    register.clean().unwrap();
    assert_eq!(highest(&register, 70), 0, "and 0 when it is cleaned away");
    assert_eq!(register.put_at(70, b"one", 7), other);
    register.put_at(70, b"one", 0).unwrap();
    assert_eq!(register.get_with_version(70), Ok(Some((b"one".to_vec(), 1))));
}

#[test]
fn a_batch_counts_its_items_in_the_versions() {
    use Change::{Delete, DeleteAt, Put, PutAt};
    let folder = Folder::new("items");
    let other = Err(Error::Refused(Refusal::OtherVersion));
    let mut register = Register::create(folder.file(), 8, None, None).unwrap();
    let new = [PutAt(1, b"a", 0), PutAt(1, b"b", 1), PutAt(2, b"c", 0), DeleteAt(1, 2), PutAt(1, b"d", 3)];
    register.batch(&new).unwrap();
    assert_eq!(register.get_with_version(1), Ok(Some((b"d".to_vec(), 4))));
    assert_eq!(register.get_with_version(2), Ok(Some((b"c".to_vec(), 1))));
    register.batch(&[Put(1, b"e"), PutAt(1, b"f", 5), Delete(2), PutAt(2, &[9; 500], 2), DeleteAt(2, 3)]).unwrap();
    assert_eq!(register.get_with_version(1), Ok(Some((b"f".to_vec(), 6))));
    assert_eq!((register.get_with_version(2), highest(&register, 2)), (Ok(None), 4));

    let lines = register.lines_used();
    let refused: [&[Change]; 6] = [
        &[Put(3, b"x"), PutAt(1, b"x", 5)],
        &[Put(3, b"x"), PutAt(1, b"x", 6), PutAt(1, b"y", 6)],
        &[Put(3, b"x"), PutAt(1, b"x", 6), DeleteAt(1, 6)],
        &[Put(3, b"x"), PutAt(3, &[8; 600], 0)],
        &[Put(3, b"x"), PutAt(2, b"x", 0)],
        &[Put(3, b"x"), Put(2, b"x"), DeleteAt(2, 4)],
    ];
    for changes in refused {
        assert_eq!(register.batch(changes), other, "{changes:?}");
        assert_eq!((register.keys(), register.lines_used()), (Ok(vec![1]), lines));
    }
    let absent = [Put(3, b"x"), DeleteAt(2, 1)];
    assert_eq!(register.batch(&absent), Err(Error::Refused(Refusal::KeyAbsent)), "that is asked before");
    let mut many: Vec<_> = (10..26).map(|key| PutAt(key, b"x", 0)).collect();
    many.push(PutAt(26, b"x", 1));
    assert_eq!(register.batch(&many), other, "and a full batch behind it");
    many[16] = PutAt(26, b"x", 0);
    assert_eq!(register.batch(&many), Err(Error::Refused(Refusal::BatchFull)));
    register.put(4, b"later").unwrap(); // with nothing that was left staged
    assert_eq!(register.keys(), Ok(vec![1, 4]));
    assert_eq!(register.get_with_version(1), Ok(Some((b"f".to_vec(), 6))));
    register.batch(&many[..16]).unwrap();
    assert_eq!(register.keys().unwrap().len(), 18);
}

/// A register whose next put needs a cleaning of chunk 1: that is full, and has all entries of key 7, which is deleted.
fn full_with_a_deleted_key(path: &Path, chunks: usize) -> Register {
    let mut register = Register::create(path, chunks, None, None).unwrap();
    register.put(7, b"first").unwrap();
    assert_eq!(register.delete(7), Ok(true));
    for _ in 2..64 {
        register.put(1, b"again").unwrap();
    }
    assert_eq!(register.chunk(1), Ok(Chunk::Log { lines: 64, live: 1, deletes: 1, superseded: 62 }));
    assert_eq!(highest(&register, 7), 2);
    register
}

/// The version is asked once: a cleaning for the put's own space drops the deleted key, and nobody else wrote.
#[test]
fn a_put_for_a_version_stays_right_when_its_call_cleans() {
    let folder = Folder::new("forgotten");
    let mut register = full_with_a_deleted_key(&folder.file(), 4);
    let before = fs::read(folder.file()).unwrap();
    for version in [0, 1, 3] {
        assert_eq!(register.put_at(7, b"second", version), Err(Error::Refused(Refusal::OtherVersion)));
    }
    assert_eq!(fs::read(folder.file()).unwrap(), before, "nothing is cleaned for another version");
    register.put_at(7, b"second", 2).unwrap();
    assert_eq!(register.get_with_version(7), Ok(Some((b"second".to_vec(), 1))), "it was cleaned away in between");
    assert_eq!(register.get_with_version(1), Ok(Some((b"again".to_vec(), 62))));
}

#[test]
fn a_batch_for_versions_stays_right_when_its_call_cleans() {
    use Change::{DeleteAt, PutAt};
    let folder = Folder::new("forgotten-batch");
    let mut register = full_with_a_deleted_key(&folder.file(), 4);
    let changes = [PutAt(1, b"new", 62), PutAt(7, b"a", 2), DeleteAt(7, 3), PutAt(7, b"b", 4), PutAt(8, b"c", 0)];
    register.batch(&changes).unwrap();
    assert_eq!(register.get_with_version(1), Ok(Some((b"new".to_vec(), 63))));
    assert_eq!(register.get_with_version(7), Ok(Some((b"b".to_vec(), 3))), "it was cleaned away in between");
    assert_eq!(register.get_with_version(8), Ok(Some((b"c".to_vec(), 1))));
}

/// A large label finds no block, so that the item behind it is not staged before the cleaning, which drops key 7.
#[test]
fn versions_behind_a_large_label_are_those_before_the_cleaning() {
    use Change::{Delete, DeleteAt, Put, PutAt};
    let folder = Folder::new("behind");
    let other = || Err(Error::Refused(Refusal::OtherVersion));
    let second = |version| Some((b"second".to_vec(), version));
    let large = [5; 1000];
    for (key, behind, done, found) in [
        (8, PutAt(7, b"second", 2), Ok(()), second(1)),
        (8, PutAt(7, b"second", 0), other(), None),
        (8, PutAt(7, b"second", 1), other(), None),
        (7, PutAt(7, b"second", 3), Ok(()), second(2)),
        (7, PutAt(7, b"second", 1), other(), None),
        (7, PutAt(7, b"second", 2), other(), None),
        (7, DeleteAt(7, 3), Ok(()), None),
        (7, DeleteAt(7, 1), other(), None),
        (7, Delete(7), Ok(()), None),
        (8, DeleteAt(7, 2), Err(Error::Refused(Refusal::KeyAbsent)), None),
    ] {
        let mut register = full_with_a_deleted_key(&folder.file(), 5);
        register.put(1, b"again").unwrap(); // in chunk 2, so that nothing of chunk 1 is needed
        assert_eq!((register.free_chunks(), register.history(7).len()), (2, 2));
        assert_eq!(register.batch(&[Put(key, &large), behind]), done, "{key} {behind:?}");
        assert!(!matches!(register.chunk(1), Ok(Chunk::Log { .. })), "it was cleaned");
        assert_eq!(register.get_with_version(7), Ok(found), "{key} {behind:?}");
        register.put(9, b"later").unwrap();
        assert_eq!(register.get(8).unwrap().is_some(), done.is_ok() && key == 8, "nothing was left staged");
        drop(register);
        fs::remove_file(folder.file()).unwrap();
    }
}

/// The highest version of each known key, and its value where it is present.
type Versions = BTreeMap<u64, (u64, Option<Vec<u8>>)>;

/// What the rules make of a batch, where there is space.
fn expected(book: &Versions, changes: &[Change]) -> Result<Versions, Refusal> {
    let mut after = book.clone();
    for change in changes {
        let (key, value, named) = match *change {
            Change::Put(key, value) => (key, Some(value), None),
            Change::PutAt(key, value, version) => (key, Some(value), Some(version)),
            Change::Delete(key) => (key, None, None),
            Change::DeleteAt(key, version) => (key, None, Some(version)),
        };
        let (version, held) = after.entry(key).or_default();
        if value.is_none() && held.is_none() {
            return Err(Refusal::KeyAbsent);
        }
        if named.is_some_and(|named| named != *version) {
            return Err(Refusal::OtherVersion);
        }
        (*version, *held) = (*version + 1, value.map(<[u8]>::to_vec));
    }
    Ok(after)
}

/// The changes by the calls for one of them, where it is one.
fn make(register: &mut Register, changes: &[Change]) -> Result<(), Error> {
    let present = |was| if was { Ok(()) } else { Err(Error::Refused(Refusal::KeyAbsent)) };
    match *changes {
        [Change::Put(key, value)] => register.put(key, value),
        [Change::PutAt(key, value, version)] => register.put_at(key, value, version),
        [Change::Delete(key)] => register.delete(key).and_then(present),
        [Change::DeleteAt(key, version)] => register.delete_at(key, version).and_then(present),
        _ => register.batch(changes),
    }
}

/// A cleaning may drop all entries of a deleted key: before the batch, so that its first item has version 1 again, or
/// after it. Every other version is the book's.
#[test]
fn drawn_changes_have_the_versions_of_the_book() {
    const KEYS: u64 = 12;
    let folder = Folder::new("drawn");
    let mut draw = Draw(9);
    let mut book = Versions::new();
    let mut register = Register::create(folder.file(), 5, None, None).unwrap();
    let (mut accepted, mut refused, mut forgotten_before, mut forgotten_after) = (0, 0, 0, 0);
    for round in 0..4000 {
        let lengths: Vec<_> = (0..5).map(|_| [0, 8, 20, 60, 256, 300][draw.below(6) as usize]).collect();
        let values: Vec<_> = lengths.into_iter().map(|length| vec![round as u8; length]).collect();
        let mut changes = Vec::new();
        for value in &values[..[1, 1, 2, 3, 5][draw.below(5) as usize]] {
            let key = draw.below(KEYS).wrapping_mul(0x9e37_79b9_7f4a_7c15); // small and large ones
            let so_far = expected(&book, &changes).unwrap_or_default();
            let (right, _) = so_far.get(&key).cloned().unwrap_or_default();
            let wrong = [0, 1, right + 1, right.wrapping_sub(1)][draw.below(4) as usize];
            let version = if draw.below(8) > 0 { right } else { wrong };
            changes.push(match draw.below(8) {
                0 => Change::Put(key, value),
                1..=4 => Change::PutAt(key, value, version),
                5 => Change::Delete(key),
                _ => Change::DeleteAt(key, version),
            });
        }
        let named = changes.iter().any(|change| matches!(change, Change::PutAt(..) | Change::DeleteAt(..)));
        let after = match expected(&book, &changes) {
            Ok(after) => {
                assert_eq!(make(&mut register, &changes), Ok(()), "{round}: {changes:?}");
                accepted += u32::from(named);
                after
            }
            Err(refusal) => {
                assert_eq!(make(&mut register, &changes), Err(Error::Refused(refusal)), "{round}: {changes:?}");
                refused += u32::from(refusal == Refusal::OtherVersion);
                book.clone()
            }
        };
        if round % 100 == 99 {
            drop(register);
            register = Register::open(folder.file()).unwrap();
        }
        if round % 300 == 299 {
            register.clean().unwrap();
        }
        let deleted = |key| book.get(&key).filter(|(_, value)| value.is_none()).map_or(0, |(version, _)| *version);
        let mut known = Versions::new();
        for (&key, (version, value)) in &after {
            let found = highest(&register, key);
            let again = *version > deleted(key) && found == *version - deleted(key);
            let allowed = found == *version || again || (found == 0 && value.is_none());
            assert!(allowed, "{round}: {key}: {found} and not {version}");
            forgotten_before += u32::from(found != *version && again);
            forgotten_after += u32::from(found == 0);
            assert_eq!(register.get_with_version(key), Ok(value.clone().map(|value| (value, found))), "{round}: {key}");
            assert_eq!(register.get(key).as_ref(), Ok(value));
            assert_eq!(register.listed(key).unwrap().map(|l| l.version), value.as_ref().map(|_| found));
            if found > 0 {
                known.insert(key, (found, value.clone()));
            }
        }
        book = known;
    }
    let reached = [accepted, refused, forgotten_before, forgotten_after];
    assert!(reached.iter().zip([1000, 300, 50, 100]).all(|(&found, least)| found >= least), "{reached:?}");
}

#[test]
fn a_full_register_cleans_and_then_refuses() {
    let folder = Folder::new("full");
    let mut register = Register::create(folder.file(), 5, None, None).unwrap();
    for round in 0..200u32 {
        register.put(u64::from(round % 3), &round.to_le_bytes().repeat(50)).unwrap();
    }
    assert_eq!(register.get(2).unwrap().unwrap(), 197u32.to_le_bytes().repeat(50));
    let refused = (100..).find_map(|key| register.put(key, &[7; 200]).err().map(|error| (key, error))).unwrap();
    assert_eq!(refused.1, Error::Refused(Refusal::NoSpace));
    assert_eq!(refused.1.to_string(), "refused 13: there is no space left in the image");
    assert_eq!(register.keys().unwrap().len() as u64, 3 + refused.0 - 100);
    assert_eq!(register.get(refused.0), Ok(None));
    assert_eq!(register.delete(100), Ok(true));
}

#[test]
fn chunks_of_large_labels_are_freed() {
    let folder = Folder::new("large");
    let mut register = Register::create(folder.file(), 12, None, None).unwrap();
    for key in 0..8 {
        register.put(key, &[key as u8; VALUE_MAX]).unwrap();
    }
    for key in 0..8 {
        assert_eq!(register.delete(key), Ok(true));
    }
    for key in 0..90 {
        register.put(key, &[key as u8; 256]).unwrap();
    }
    assert!(all(&register).into_iter().eq((0..90).map(|key| (key, vec![key as u8; 256]))));
    for key in 0..90 {
        assert_eq!(register.delete(key), Ok(true));
    }
    register.clean().unwrap();
    assert_eq!(register.free_chunks(), 11);
}

#[test]
fn large_chunks_have_longer_values() {
    let folder = Folder::new("size");
    let scan: Vec<u8> = (0..60_000).map(|i| (i % 251) as u8).collect();
    let longest = vec![9; LARGE_VALUE_MAX];
    let mut register = Register::create_with(folder.file(), 6, ChunkSize::Large, Some(7), None).unwrap();
    assert_eq!((register.chunk_size(), register.chunks(), register.free_chunks()), (ChunkSize::Large, 6, 5));
    register.batch(&[Change::Put(1, &scan), Change::Put(2, b"two"), Change::Put(3, &longest)]).unwrap();
    assert_eq!(register.put(4, &vec![0; LARGE_VALUE_MAX + 1]), Err(Error::Refused(Refusal::TooLong)));
    drop(register);
    let register = Register::open_with(folder.file(), Access::Read, None).unwrap();
    assert_eq!((register.chunk_size().value_max(), register.station()), (LARGE_VALUE_MAX, Some(7)));
    assert_eq!(all(&register), BTreeMap::from([(1, scan), (2, b"two".to_vec()), (3, longest)]));
    let small = Register::create(folder.0.join("small"), 5, None, None).unwrap();
    assert_eq!((small.chunk_size(), small.chunks()), (ChunkSize::Small, 5));
}

#[test]
fn files_and_locks() {
    let folder = Folder::new("files");
    let at_once = Some(Duration::ZERO);
    assert!(matches!(Register::open(folder.file()), Err(Error::File(_))));
    assert_eq!(Register::create(folder.file(), 3, None, None).err(), Some(Error::Refused(Refusal::ImageLength)));
    assert_eq!(Register::create(folder.file(), usize::MAX, None, None).err(), Some(Error::Refused(Refusal::ImageLength)));
    let mut writer = Register::create(folder.file(), 4, None, Some(9)).unwrap();
    writer.put(1, b"one").unwrap();
    let error = Register::open_with(folder.file(), Access::Read, at_once).err().unwrap();
    assert_eq!(error.to_string(), "is locked by another program; waited 0 s");
    drop(writer);
    let mut readers = [(); 2].map(|()| Register::open_with(folder.file(), Access::Read, at_once).unwrap());
    assert_eq!(readers[0].get(1).unwrap().unwrap(), b"one");
    assert_eq!(readers[1].put(1, b"two"), Err(Error::ReadOnly));
    assert_eq!(readers[1].clean(), Err(Error::ReadOnly));
    let before = fs::read(folder.file()).unwrap();
    assert!(matches!(Register::create(folder.file(), 4, None, None), Err(Error::File(_))));
    assert_eq!(fs::read(folder.file()).unwrap(), before);
    assert_eq!(fs::read_dir(&folder.0).unwrap().count(), 1, "nothing is left beside it");
    fs::rename(folder.file(), folder.0.join("old.img")).unwrap();
    assert!(Register::create(folder.file(), 4, None, None).is_ok());
    fs::write(folder.0.join("letter"), b"a letter").unwrap();
    assert_eq!(Register::open(folder.0.join("letter")).err(), Some(Error::Refused(Refusal::ImageLength)));
}

#[test]
fn a_file_that_is_exchanged_is_noticed() {
    let folder = Folder::new("exchanged");
    let mut register = Register::create(folder.file(), 4, None, None).unwrap();
    fs::copy(folder.file(), folder.0.join("other")).unwrap();
    fs::rename(folder.0.join("other"), folder.file()).unwrap();
    assert!(matches!(register.put(1, b"one"), Err(Error::File(_))));
}

#[test]
fn another_thread_may_have_it() {
    let folder = Folder::new("thread");
    let mut register = Register::create(folder.file(), 4, None, None).unwrap();
    let register = thread::spawn(move || register.put(1, b"one").map(|()| register)).join().unwrap().unwrap();
    thread::scope(|s| {
        for _ in 0..2 {
            s.spawn(|| assert_eq!(register.get(1).unwrap().unwrap(), b"one"));
        }
    });
}

#[test]
fn a_wait_is_over_in_time_in_any_thread() {
    let folder = Folder::new("wait");
    let writer = Register::create(folder.file(), 4, None, None).unwrap();
    let (done, waited) = mpsc::channel();
    let (file, begin) = (folder.file(), Instant::now());
    thread::spawn(move || done.send(Register::open_with(file, Access::Write, Some(Duration::from_secs(1))).err().unwrap()));
    let error = waited.recv_timeout(Duration::from_secs(5)).expect("the wait is over");
    assert_eq!(error.to_string(), "is locked by another program; waited 1 s");
    assert!(begin.elapsed() >= Duration::from_secs(1));
    drop(writer);
}

/// The calls of zitskvoze.h that cut a cleaning off in the middle, which the crate does not do.
mod c {
    #[repr(C)]
    #[derive(Clone, Copy)]
    pub struct Report {
        pub kind: u64,
        pub first: u64,
        pub second: u64,
    }

    pub const BEGUN: u64 = 1;
    pub const OPENED: u64 = 7;
    pub const RECORD_WORDS: usize = 11_286;
    pub const TABLE_WORDS: usize = 4096;
    pub const LAST_ACTIONS: u64 = 3; // of a cleaning: the chunk becomes free

    #[repr(C, align(64))]
    pub struct Image(pub [u8; 4 * 4096]);

    extern "C" {
        pub fn zkv_open(record: *mut u64, image: *const u8, bytes: usize, table: *mut u64, words: usize) -> Report;
        pub fn zkv_clean(record: *mut u64, image: *const u8, bytes: usize, table: *const u64, words: usize, chunk: usize) -> Report;
        pub fn zkv_step(record: *mut u64, image: *mut u8, bytes: usize, table: *mut u64, words: usize) -> Report;
    }
}

/// The file becomes what a power cut before the last three actions of the chunk's cleaning leaves.
fn cut_cleaning(path: &Path, chunk: usize) {
    let mut image = Box::new(c::Image(fs::read(path).unwrap().try_into().unwrap()));
    let (mut record, mut table) = (vec![0; c::RECORD_WORDS], vec![0; c::TABLE_WORDS]);
    let (record, table, words) = (record.as_mut_ptr(), table.as_mut_ptr(), table.len());
    let (at, bytes) = (image.0.as_mut_ptr(), image.0.len());
    // Safety: what is lent is this function's, of these lengths.
    unsafe {
        assert_eq!(c::zkv_open(record, at, bytes, table, words).kind, c::OPENED);
        let begun = c::zkv_clean(record, at, bytes, table, words, chunk);
        assert_eq!(begun.kind, c::BEGUN);
        for _ in c::LAST_ACTIONS..begun.first {
            c::zkv_step(record, at, bytes, table, words);
        }
    }
    fs::write(path, image.0).unwrap();
}

/// A label of a whole line of the log.
fn line(key: u64, print: u8) -> Vec<u8> {
    [&key.to_le_bytes()[..], &[print; 40]].concat()
}

/// Chunk 1 full of 64 labels, of which 32 are deleted or printed anew in chunk 2, which is full too; a power cut in the
/// cleaning of chunk 1 leaves no free chunk. An opening that does nothing about it, and 32 labels more, would leave a
/// register in which nothing goes any more.
#[test]
fn a_cleaning_that_was_cut_off_leaves_no_stuck_register() {
    let folder = Folder::new("stuck");
    let mut book = BTreeMap::new();
    let mut register = Register::create(folder.file(), 4, None, None).unwrap();
    let mut put = |register: &mut Register, keys: std::ops::Range<u64>, print: u8| {
        for key in keys {
            register.put(key, &line(key, print)).unwrap();
            book.insert(key, line(key, print));
        }
        book.clone()
    };
    put(&mut register, 0..64, 1);
    assert_eq!(register.delete(0), Ok(true));
    put(&mut register, 1..32, 2);
    let mut before = put(&mut register, 64..96, 1);
    before.remove(&0);
    assert_eq!((register.free_chunks(), register.chunk(3)), (1, Ok(Chunk::Free)));
    drop(register);
    cut_cleaning(&folder.file(), 1);

    let reader = Register::open_with(folder.file(), Access::Read, None).unwrap();
    assert_eq!((reader.free_chunks(), all(&reader)), (0, before.clone()), "reading changes nothing");
    drop(reader);
    let mut register = Register::open(folder.file()).unwrap();
    assert_eq!((register.free_chunks(), all(&register)), (1, before));
    let mut after = put(&mut register, 1000..1032, 1);
    after.remove(&0);
    register.put(1, b"still goes").unwrap();
    assert_eq!(register.delete(2), Ok(true));
    after.insert(1, b"still goes".to_vec());
    after.remove(&2);
    assert!(register.free_chunks() > 0);
    assert_eq!(all(&register), after);
}

#[test]
fn refusals_have_numbers() {
    assert_eq!((1..=17).map(|n| Refusal::of_number(n).unwrap().number()).collect::<Vec<_>>(), (1..=17).collect::<Vec<_>>());
    assert_eq!((Refusal::of_number(0), Refusal::of_number(18)), (None, None));
    assert_eq!(Refusal::KeyAbsent.to_string(), "refused 11: the key is absent");
    assert_eq!(Refusal::OtherVersion.to_string(), "refused 17: the key's version is not the one named");
}

#[test]
fn chunks_and_entries_are_told() {
    let folder = Folder::new("inside");
    let mut register = Register::create(folder.file(), 6, Some(7), None).unwrap();
    assert_eq!((register.station(), register.centre()), (Some(7), None));
    register.put(1, b"one").unwrap();
    register.put(1, b"two").unwrap();
    register.put(2, b"a").unwrap();
    register.delete(2).unwrap();
    register.put(3, &[5; 1000]).unwrap();
    let log = (1..6).find(|&c| matches!(register.chunk(c).unwrap(), Chunk::Log { .. })).unwrap();
    assert_eq!(register.chunk(log).unwrap(), Chunk::Log { lines: 5, live: 2, deletes: 1, superseded: 2 });
    let data = (1..6).find(|&c| matches!(register.chunk(c).unwrap(), Chunk::Data { .. })).unwrap();
    assert_eq!(register.chunk(data).unwrap(), Chunk::Data { block_bytes: 1024, blocks: 4, used: 1 });
    assert_eq!(register.chunk(0).err(), Some(Error::Refused(Refusal::NotCleanable)));
    let told: Vec<_> = register.history(1).iter().map(|e| (e.version, e.put, e.block, e.current)).collect();
    assert_eq!(told, [(1, true, false, false), (2, true, false, true)]);
    assert!(register.history(4).is_empty());
    // more than there is room for at first
    for _ in 0..100 {
        register.put(4, b"again").unwrap();
    }
    let places: Vec<_> = register.history(4).iter().map(|e| (e.version, e.current, e.place)).collect();
    assert_eq!(places.len(), 100);
    assert!(places.windows(2).all(|p| p[0].2 < p[1].2) && places.iter().all(|p| p.1 == (p.0 == 100)));
    register.delete(3).unwrap();
    register.clean().unwrap();
    assert_eq!(register.chunk(data).unwrap(), Chunk::Free);
}
