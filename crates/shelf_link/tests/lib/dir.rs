//! A shelf in a folder: made late, read back, cut short, and where it can't be made.

use crate::{Got, Shelf, ShelfDir};
use far_io::Failed;
use std::fs;
use std::io::ErrorKind;
use std::test::Fail;

fn shelf(rt: &HostRuntime, folder: &str) -> Result<ShelfDir<HostRuntime>, Fail> {
    let alloc = rt.alloc();
    Ok(ShelfDir::new(rt.clone()?, alloc, String::from_str(alloc, folder)?, 3))
}

// What a get of a block into a buffer of four bytes finds: the bytes, or `-`, `!` or `#` for none, a fault and more.
fn found(shelf: &mut ShelfDir<HostRuntime>, rt: &HostRuntime, block: u64) -> Result<Vec<u8>, Fail> {
    let mut out = [b'.'; 4];
    let text = match shelf.get(block, &mut out) {
        Ok(Got::Absent) => b"-".as_slice(),
        Ok(Got::Bytes(count)) => &out[..count.min(4)],
        Ok(Got::Longer(len)) if len == 5 => b"#",
        Ok(Got::Longer(_)) => b"?",
        Err(Failed) => b"!",
    };
    Ok(Vec::from_slice(rt.alloc(), text)?)
}

#[test]
fn files_are_read_back_by_another_shelf(rt: HostRuntime) -> Result<(), Fail> {
    let folder = "shelf_dir_read_back";
    let _ = fs::remove_dir_all(&rt, folder);
    let mut one = shelf(&rt, folder)?;
    assert_eq!(rt; found(&mut one, &rt, 1)?.as_slice(), b"-".as_slice());
    assert_eq!(rt; one.remove(1), Ok(()));
    assert!(rt; !fs::exists(&rt, folder)?);
    for (block, bytes) in [
        (1u64, b"ab".as_slice()),
        (2, b"abcde"),
        (u64::MAX, b""),
        (1, b"xyz"),
    ] {
        assert_eq!(rt; one.put(block, bytes), Ok(()));
    }
    let text = fs::read(&rt, "shelf_dir_read_back/u3/b1")?;
    assert_eq!(rt; text.as_slice(), b"xyz".as_slice());
    assert!(rt; !fs::exists(&rt, "shelf_dir_read_back/u3/t1")?);
    let mut other = shelf(&rt, folder)?;
    for (block, want) in [
        (1u64, b"xyz".as_slice()),
        (2, b"#"),
        (u64::MAX, b""),
        (3, b"-"),
    ] {
        assert_eq!(rt; found(&mut other, &rt, block)?.as_slice(), want);
    }
    fs::write(&rt, "shelf_dir_read_back/u3/b1", "x")?;
    assert_eq!(rt; found(&mut one, &rt, 1)?.as_slice(), b"x".as_slice());
    assert_eq!(rt; other.remove(1), Ok(()));
    assert_eq!(rt; found(&mut one, &rt, 1)?.as_slice(), b"-".as_slice());
    assert_eq!(rt; (one.faults(), other.faults()), (0, 0));
    assert!(rt; one.last_error().is_none());
    fs::remove_dir_all(&rt, folder)?;
    Ok(())
}

#[test]
fn a_folder_that_cannot_be_made_is_a_fault(rt: HostRuntime) -> Result<(), Fail> {
    let file = "shelf_dir_no_folder";
    fs::write(&rt, file, "a file")?;
    let mut shelf = shelf(&rt, file)?;
    assert_eq!(rt; shelf.put(1, b"ab"), Err(Failed));
    assert_eq!(rt; shelf.faults(), 1);
    let error = shelf.last_error().ok_or("no error")?;
    assert!(rt; error.kind() == ErrorKind::NotADirectory);
    fs::remove_file(&rt, file)?;
    Ok(())
}

#[test]
fn a_put_that_fails_leaves_what_stood_there(rt: HostRuntime) -> Result<(), Fail> {
    let folder = "shelf_dir_left";
    let _ = fs::remove_dir_all(&rt, folder);
    let mut shelf = shelf(&rt, folder)?;
    assert_eq!(rt; shelf.put(1, b"ab"), Ok(()));
    fs::create_dir(&rt, "shelf_dir_left/u3/t1")?;
    assert_eq!(rt; shelf.put(1, b"cd"), Err(Failed));
    assert_eq!(rt; found(&mut shelf, &rt, 1)?.as_slice(), b"ab".as_slice());
    assert_eq!(rt; shelf.faults(), 1);
    fs::remove_dir_all(&rt, folder)?;
    Ok(())
}
