//! The file under a register: the helper of zitskvoze_file.h, closed when it is dropped.
use std::ffi::{CStr, CString};
use std::mem::MaybeUninit;
use std::os::raw::c_char;
use std::os::unix::ffi::OsStrExt;
use std::path::Path;
use std::time::Duration;

use crate::error::Error;
use crate::{sys, Access};

pub struct File {
    raw: Box<sys::File>, // the library keeps no address of it after a call
    _name: CString,      // lent to it
}

/// NULL where it is done, else words that hold until the next call.
fn done(text: *const c_char) -> Result<(), Error> {
    if text.is_null() {
        return Ok(());
    }
    // Safety: the helper answers NULL or a text.
    Err(Error::File(unsafe { CStr::from_ptr(text) }.to_string_lossy().into_owned()))
}

impl File {
    fn with(path: &Path, begin: impl FnOnce(*mut sys::File, *const c_char) -> *const c_char) -> Result<File, Error> {
        let name = CString::new(path.as_os_str().as_bytes()).map_err(|_| Error::File("a name has no NUL".into()))?;
        // Safety: all of its fields are numbers and pointers, of which zero is a value; the helper fills them all.
        let mut raw: Box<sys::File> = Box::new(unsafe { MaybeUninit::zeroed().assume_init() });
        let text = begin(&mut *raw, name.as_ptr());
        let file = File { raw, _name: name }; // closed also where it failed
        done(text)?;
        Ok(file)
    }

    pub fn open(path: &Path, access: Access, wait: Option<Duration>) -> Result<File, Error> {
        let usage = if access == Access::Read { sys::FILE_READ } else { sys::FILE_WRITE };
        let seconds = wait.map_or(-1, |w| w.as_secs().min(1_000_000) as _);
        // Safety: the name lasts as long as the file.
        File::with(path, |raw, name| unsafe { sys::zkv_file_open(raw, name, usage, sys::Wait { seconds, notice: None }) })
    }

    pub fn new(path: &Path, bytes: usize) -> Result<File, Error> {
        // Safety: as above.
        File::with(path, |raw, name| unsafe { sys::zkv_file_new(raw, name, bytes) })
    }

    pub fn take_name(&mut self) -> Result<(), Error> {
        // Safety: it was made by zkv_file_new.
        done(unsafe { sys::zkv_file_take_name(&mut *self.raw, std::ptr::null()) })
    }

    pub fn confirm(&self) -> Result<(), Error> {
        // Safety: it is open.
        done(unsafe { sys::zkv_file_confirm(&*self.raw) })
    }

    pub fn image(&self) -> *mut u8 {
        self.raw.image
    }

    pub fn bytes(&self) -> usize {
        self.raw.bytes
    }

    pub fn raw(&mut self) -> *mut sys::File {
        &mut *self.raw
    }

    /// A copy of a part of the image.
    pub fn copy(&self, start: u64, length: u64) -> Result<Vec<u8>, Error> {
        let (start, length) = (start as usize, length as usize);
        if start.checked_add(length).map_or(true, |end| end > self.bytes()) {
            return Err(Error::Odd(format!("a value of {length} bytes at {start} is outside the image")));
        }
        let mut copy = vec![0; length];
        // Safety: the part lies in the mapping, and the copy is new.
        unsafe { std::ptr::copy_nonoverlapping(self.image().add(start), copy.as_mut_ptr(), length) };
        Ok(copy)
    }
}

impl Drop for File {
    fn drop(&mut self) {
        // Safety: nothing points into the mapping but the register that ends with it.
        unsafe { sys::zkv_file_close(&mut *self.raw) }
    }
}
