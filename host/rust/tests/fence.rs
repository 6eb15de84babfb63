//! A sync of the file that fails: the write says so, and from then on nothing is read or written, whichever of its
//! syncs it was. The program has an `msync` of its own, which the library's file calls.
use std::ffi::{c_int, c_long, c_void};
use std::fs;
use std::sync::atomic::{AtomicI64, Ordering};

use zitskvoze::{Change, Error, Refusal, Register};

/// How many syncs are done before one fails; below 0: none does.
static SYNCS: AtomicI64 = AtomicI64::new(-1);

extern "C" {
    fn syscall(number: c_long, ...) -> c_long;
}

/// # Safety
/// As that of the system.
#[no_mangle]
pub unsafe extern "C" fn msync(from: *mut c_void, bytes: usize, flags: c_int) -> c_int {
    const SYS_MSYNC: c_long = 26;
    if SYNCS.fetch_sub(1, Ordering::Relaxed) == 0 {
        return -1;
    }
    syscall(SYS_MSYNC, from, bytes, c_long::from(flags)) as c_int
}

#[test]
fn nothing_is_read_after_a_failed_fence() {
    let unfinished = || Error::Refused(Refusal::Unfinished);
    let folder = std::env::temp_dir().join(format!("zitskvoze-fence-{}", std::process::id()));
    fs::create_dir(&folder).unwrap();
    let file = folder.join("labels.img");
    Register::create(&file, 8, None, None).unwrap().put(1, b"A+").unwrap();
    let mut failed = 0;
    for syncs in 0.. {
        let mut labels = Register::open(&file).unwrap();
        SYNCS.store(syncs, Ordering::Relaxed);
        let done = labels.batch(&[Change::Put(1, b"B-"), Change::Put(2, b"O+")]);
        SYNCS.store(-1, Ordering::Relaxed);
        if done.is_ok() {
            assert_eq!(labels.get(1).unwrap().as_deref(), Some(&b"B-"[..]));
            break;
        }
        failed += 1;
        assert_eq!(done, Err(Error::NotDurable));
        assert_eq!(labels.get(1), Err(unfinished()));
        assert_eq!(labels.get_with_version(1), Err(unfinished()));
        assert_eq!(labels.listed(1), Err(unfinished()));
        assert_eq!(labels.keys(), Err(unfinished()));
        assert!(labels.iter().is_err_and(|error| error == unfinished()));
        assert_eq!(labels.put(3, b"AB+"), Err(unfinished()));
        assert_eq!(labels.delete(1), Err(unfinished()));
        assert_eq!(labels.clean(), Err(unfinished()));
        drop(labels);
        let labels = Register::open(&file).unwrap();
        let found = (labels.get(1).unwrap().unwrap(), labels.get(2).unwrap());
        assert!(found == (b"A+".to_vec(), None) || found == (b"B-".to_vec(), Some(b"O+".to_vec())));
    }
    assert!(failed >= 2, "a commit has two fences");
    fs::remove_dir_all(&folder).unwrap();
}
