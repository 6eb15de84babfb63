//! The calls of zitskvoze.h and zitskvoze_file.h as they are. The headers are their manual.
use std::os::raw::{c_char, c_int, c_long, c_void};

pub const VERSION: &str = "1.0"; // ZKV_VERSION of the header that this file follows
pub const POWER_SMALL: u64 = 12;
pub const POWER_LARGE: u64 = 16;
pub const CHUNK_BYTES: usize = 4096;
pub const LARGE_CHUNK_BYTES: usize = 65536;
pub const CHUNKS: std::ops::RangeInclusive<usize> = 4..=504;
pub const TABLE_WORDS: usize = 262_144;
pub const RECORD_WORDS: usize = 11_286;

pub const REFUSED: u64 = 0;
pub const BEGUN: u64 = 1;
pub const FENCE: u64 = 4;
pub const END: u64 = 5;
pub const IDLE: u64 = 6;
pub const OPENED: u64 = 7;
pub const CHOSEN: u64 = 9;

pub const FILE_READ: c_int = 0;
pub const FILE_WRITE: c_int = 1;

#[repr(C)]
#[derive(Clone)]
pub struct Record {
    pub word: [u64; RECORD_WORDS],
}

#[repr(C)]
#[derive(Clone, Copy, Debug)]
pub struct Report {
    pub kind: u64,
    pub first: u64,
    pub second: u64,
}

#[repr(C)]
#[derive(Clone, Copy, Debug)]
pub struct ChunkRow {
    pub refused: u64,
    pub role: u64,
    pub size: u64,
    pub live: u64,
    pub deletes: u64,
    pub superseded: u64,
    pub blocks: u64,
    pub used: u64,
}

/// The words of an entry as zkv_entries writes them: place, op, version, block, field, chosen.
pub const ENTRY_WORDS: usize = 6;

#[repr(C)]
pub struct File {
    pub image: *mut u8,
    pub bytes: usize,
    pub name: *const c_char,
    pub length: i64,
    pub usage: c_int,
    pub descriptor: c_int,
    pub how: c_int,
    pub by_pages: c_int,
    pub page: [u8; 504 * 16],
    pub device: u64,
    pub inode: u64,
    pub owner: u32,
    pub group: u32,
    pub mode: u32,
    pub made: [c_char; 4096],
    pub wanted: [c_char; 4096],
}

#[repr(C)]
pub struct Wait {
    pub seconds: c_long,
    pub notice: Option<extern "C" fn(*const c_char)>,
}

pub type Flush = unsafe extern "C" fn(*mut c_void, *const u8);
pub type Fence = unsafe extern "C" fn(*mut c_void) -> c_int;

extern "C" {
    pub fn zkv_format(
        record: *mut Record, image: *const u8, bytes: usize, table: *const u64, words: usize,
        power: u64, station_given: u64, station: u64, centre_given: u64, centre: u64,
    ) -> Report;
    pub fn zkv_open(record: *mut Record, image: *const u8, bytes: usize, table: *mut u64, words: usize) -> Report;
    pub fn zkv_put(
        record: *mut Record, image: *const u8, bytes: usize, table: *const u64, words: usize,
        key: u64, value: *const u8, length: usize,
    ) -> Report;
    pub fn zkv_put_at(
        record: *mut Record, image: *const u8, bytes: usize, table: *const u64, words: usize,
        key: u64, value: *const u8, length: usize, version: u64,
    ) -> Report;
    pub fn zkv_delete(record: *mut Record, image: *const u8, bytes: usize, table: *const u64, words: usize, key: u64) -> Report;
    pub fn zkv_delete_at(
        record: *mut Record, image: *const u8, bytes: usize, table: *const u64, words: usize, key: u64, version: u64,
    ) -> Report;
    pub fn zkv_commit(record: *mut Record, image: *const u8, bytes: usize, table: *const u64, words: usize) -> Report;
    pub fn zkv_abandon(record: *mut Record, image: *const u8, bytes: usize, table: *const u64, words: usize) -> Report;
    pub fn zkv_choose(record: *const Record, image: *const u8, bytes: usize, table: *const u64, words: usize) -> Report;
    pub fn zkv_clean(record: *mut Record, image: *const u8, bytes: usize, table: *const u64, words: usize, chunk: usize) -> Report;
    pub fn zkv_finish(
        record: *mut Record, image: *mut u8, bytes: usize, table: *mut u64, words: usize,
        report: Report, flush: Flush, fence: Fence, context: *mut c_void,
    ) -> Report;
    pub fn zkv_make_room(
        record: *mut Record, image: *mut u8, bytes: usize, table: *mut u64, words: usize,
        flush: Flush, fence: Fence, context: *mut c_void,
    ) -> Report;
    pub fn zkv_look_up(
        record: *const Record, image: *const u8, bytes: usize, table: *const u64, words: usize,
        key: u64, start: *mut u64, length: *mut u64,
    ) -> u64;
    pub fn zkv_look_up_version(
        record: *const Record, image: *const u8, bytes: usize, table: *const u64, words: usize,
        key: u64, start: *mut u64, length: *mut u64, version: *mut u64,
    ) -> u64;
    pub fn zkv_list_keys(
        record: *const Record, image: *const u8, bytes: usize, table: *const u64, words: usize,
        keys: *mut u64, room: usize, count: *mut u64,
    ) -> u64;
    pub fn zkv_list_key(
        record: *const Record, image: *const u8, bytes: usize, table: *const u64, words: usize,
        key: u64, version: *mut u64, length: *mut u64, block: *mut u64,
    ) -> u64;
    pub fn zkv_power(image: *const u8, bytes: usize) -> u64;
    pub fn zkv_keys(record: *const Record) -> u64;
    pub fn zkv_free_chunks(image: *const u8, bytes: usize) -> u64;
    pub fn zkv_lines_used(image: *const u8, bytes: usize) -> u64;
    pub fn zkv_chunk(
        record: *const Record, image: *const u8, bytes: usize, table: *const u64, words: usize, chunk: usize,
    ) -> ChunkRow;
    pub fn zkv_empty_chunk(
        record: *const Record, image: *const u8, bytes: usize, table: *const u64, words: usize, from: usize,
    ) -> Report;
    pub fn zkv_station(image: *const u8, bytes: usize, number: *mut u64) -> u64;
    pub fn zkv_centre(image: *const u8, bytes: usize, number: *mut u64) -> u64;
    pub fn zkv_entries(image: *const u8, bytes: usize, key: u64, from: usize, words: *mut u64, room: usize) -> usize;
    pub fn zkv_sentence(number: u64) -> *const c_char;
    pub fn zkv_version() -> *const c_char;

    pub fn zkv_file_guard(program: *const c_char) -> c_int;
    pub fn zkv_file_open(file: *mut File, name: *const c_char, usage: c_int, wait: Wait) -> *const c_char;
    pub fn zkv_file_flush(file: *mut c_void, line: *const u8);
    pub fn zkv_file_fence(file: *mut c_void) -> c_int;
    pub fn zkv_file_new(file: *mut File, name: *const c_char, bytes: usize) -> *const c_char;
    pub fn zkv_file_take_name(file: *mut File, old: *const File) -> *const c_char;
    pub fn zkv_file_confirm(file: *const File) -> *const c_char;
    pub fn zkv_file_close(file: *mut File);
}
