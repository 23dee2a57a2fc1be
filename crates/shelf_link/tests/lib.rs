//! Each form of a shelf at each kind of failure, by tables.

use crate::{Got, NullShelf, Shelf, ShelfMem, ShelfTwist, SureShelf};
use far_io::{Failed, Raw};
use std::test::Fail;

mod dir;

// The helpers have no contract, so that a test's proof carries none of the shelves'.

fn mem(rt: &HostRuntime, fails: &[u64]) -> Result<ShelfMem, Fail> {
    Ok(ShelfMem::new(rt.alloc(), Vec::from_slice(rt.alloc(), fails)?))
}

fn null(rt: &HostRuntime, fails: &[u64]) -> Result<NullShelf, Fail> {
    Ok(NullShelf::new(Vec::from_slice(rt.alloc(), fails)?))
}

fn raw(rt: &HostRuntime, bytes: &[u8]) -> Result<Raw, Fail> {
    Ok(Raw::from_slice(rt.alloc(), bytes)?)
}

// What a get of a block into a buffer of four bytes finds: the bytes, or `-`, `!` or `#` for none, a fault and more.
fn found<K: Shelf>(shelf: &mut K, rt: &HostRuntime, block: u64) -> Result<Vec<u8>, Fail> {
    let mut out = [b'.'; 4];
    let text = match shelf.get(block, &mut out) {
        Ok(Got::Absent) => b"-".as_slice(),
        Ok(Got::Bytes(count)) => &out[..count.min(4)],
        Ok(Got::Longer(_)) => b"#",
        Err(Failed) => b"!",
    };
    Ok(Vec::from_slice(rt.alloc(), text)?)
}

// A put of `ab` under 1 and of `abcde` under 2, a remove of 1 and gets of both: what each call comes to.
fn script<K: Shelf>(shelf: &mut K, rt: &HostRuntime) -> Result<Vec<u8>, Fail> {
    let mut out = Vec::new(rt.alloc());
    for (block, bytes) in [(1u64, b"ab".as_slice()), (2, b"abcde")] {
        out.push(if shelf.put(block, bytes).is_ok() {
            b'p'
        } else {
            b'!'
        })?;
    }
    out.extend_from_slice(found(shelf, rt, 1)?.as_slice())?;
    out.extend_from_slice(found(shelf, rt, 2)?.as_slice())?;
    out.push(if shelf.remove(1).is_ok() { b'r' } else { b'!' })?;
    out.extend_from_slice(found(shelf, rt, 1)?.as_slice())?;
    Ok(out)
}

#[test]
fn a_shelf_in_memory_fails_at_its_listed_calls(rt: HostRuntime) -> Result<(), Fail> {
    for (fails, want, faults) in [
        ([].as_slice(), b"ppab#r-".as_slice(), 0u64),
        (&[0], b"!p-#r-", 1),
        (&[1], b"p!ab-r-", 1),
        (&[2], b"pp!#r-", 1),
        (&[4], b"ppab#!ab", 1),
        (&[5, 0, 9], b"!p-#r!", 2),
    ] {
        let mut shelf = mem(&rt, fails)?;
        let got = script(&mut shelf, &rt)?;
        assert_eq!(rt; got.as_slice(), want);
        assert_eq!(rt; (shelf.calls(), shelf.faults()), (6, faults));
    }
    Ok(())
}

#[test]
fn a_null_shelf_holds_nothing(rt: HostRuntime) -> Result<(), Fail> {
    for (fails, want) in [
        ([].as_slice(), b"pp--r-".as_slice()),
        (&[0, 3], b"!p-!r-"),
        (&[4], b"pp--!-"),
    ] {
        let mut shelf = null(&rt, fails)?;
        let got = script(&mut shelf, &rt)?;
        assert_eq!(rt; got.as_slice(), want);
        assert_eq!(rt; (shelf.calls(), shelf.faults()), (6, fails.len() as u64));
    }
    Ok(())
}

#[test]
fn a_sure_shelf_fails_where_its_room_is_too_small(rt: HostRuntime) -> Result<(), Fail> {
    for (blocks, bytes, want, faults) in [
        (2usize, 5usize, b"ppab#r-".as_slice(), 0u64),
        (1, 5, b"p!ab-r-", 1),
        (2, 4, b"p!ab-r-", 1),
        (0, 5, b"!!--r-", 2),
    ] {
        let mut shelf = SureShelf::new(rt.alloc(), blocks, bytes)?;
        let got = script(&mut shelf, &rt)?;
        assert_eq!(rt; got.as_slice(), want);
        assert_eq!(rt; shelf.faults(), faults);
    }
    Ok(())
}

#[test]
fn a_sure_shelf_gives_room_back(rt: HostRuntime) -> Result<(), Fail> {
    let mut shelf = SureShelf::new(rt.alloc(), 3, 2)?;
    for (block, bytes) in [
        (7u64, b"aa".as_slice()),
        (3, b"b"),
        (5, b"cc"),
        (3, b"d"),
        (7, b""),
    ] {
        assert_eq!(rt; shelf.put(block, bytes), Ok(()));
    }
    assert_eq!(rt; shelf.put(4, b"e"), Err(Failed));
    assert_eq!(rt; shelf.remove(5), Ok(()));
    assert_eq!(rt; shelf.put(4, b"e"), Ok(()));
    for (block, want) in [(3u64, b"d".as_slice()), (4, b"e"), (5, b"-"), (7, b"")] {
        assert_eq!(rt; found(&mut shelf, &rt, block)?.as_slice(), want);
    }
    Ok(())
}

#[test]
fn a_twisted_shelf_answers_what_is_listed(rt: HostRuntime) -> Result<(), Fail> {
    let mut answers = Vec::new(rt.alloc());
    for (get, bytes) in [(1u64, b"xyz".as_slice()), (1, b"later"), (3, b"long!")] {
        answers.push((get, raw(&rt, bytes)?))?;
    }
    let mut shelf = ShelfTwist::new(rt.alloc(), answers);
    assert_eq!(rt; shelf.put(1, b"ab"), Ok(()));
    for want in [b"ab".as_slice(), b"xyz", b"ab", b"#", b"ab"] {
        assert_eq!(rt; found(&mut shelf, &rt, 1)?.as_slice(), want);
    }
    assert_eq!(rt; shelf.remove(1), Ok(()));
    assert_eq!(rt; found(&mut shelf, &rt, 1)?.as_slice(), b"-".as_slice());
    assert_eq!(rt; (shelf.gets(), shelf.faults()), (6, 0));
    Ok(())
}
