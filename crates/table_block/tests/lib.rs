//! The format's vectors, a block of three records, and what each call makes of it. The bytes were worked by another program.

use crate::{BlockBuf, Spot, find, hash_slot, insert, next_spot, remove, replace};
use far_words::Unfit;
use std::test::Fail;

// `a` has `xyz`, the empty key nothing, and `bc` has `1`.
const THREE: [u8; 19] = [
    0, 1, 0, 3, b'a', b'x', b'y', b'z', 0, 0, 0, 0, 0, 2, 0, 1, b'b', b'c', b'1',
];

// The helpers have no contract, so that a test's proof carries none of the records.

fn found(bytes: &[u8], key: &[u8]) -> Result<Option<Spot>, Unfit> {
    if bytes.len() > 65_536 {
        return Err(Unfit { place: 70_000 });
    }
    find(bytes, key)
}

fn spot(at: u32, value: u32, end: u32) -> Result<Option<Spot>, Unfit> {
    Ok(Some(Spot { at, value, end }))
}

// Whether a record could be put in, changed or taken out.

fn put(buf: &mut BlockBuf, key: &[u8], value: &[u8]) -> bool {
    if key.len() > 1000 || value.len() > 1000 {
        return false;
    }
    if buf.bytes().len() + 4 + key.len() + value.len() > buf.size() as usize {
        return false;
    }
    insert(buf, key, value);
    true
}

fn change(buf: &mut BlockBuf, key: &[u8], value: &[u8]) -> bool {
    let size = buf.size() as usize;
    let Ok(Some(spot)) = find(buf.bytes(), key) else {
        return false;
    };
    if value.len() > 1000 || buf.bytes().len() + value.len() > size {
        return false;
    }
    replace(buf, &spot, value);
    true
}

fn take_out(buf: &mut BlockBuf, key: &[u8]) -> bool {
    let _size = buf.size();
    let Ok(Some(spot)) = find(buf.bytes(), key) else {
        return false;
    };
    remove(buf, &spot);
    true
}

// The block of three, in a buffer of so many bytes.
fn three(rt: &HostRuntime, size: u32) -> Result<BlockBuf, Fail> {
    if size > 65_536 {
        return Err(Fail::from("no block"));
    }
    let mut buf = BlockBuf::new(rt.alloc(), size)?;
    for (key, value) in [
        (b"a".as_slice(), b"xyz".as_slice()),
        (b"", b""),
        (b"bc", b"1"),
    ] {
        if !put(&mut buf, key, value) {
            return Err(Fail::from("no room"));
        }
    }
    Ok(buf)
}

#[test]
fn slots_of_keys(rt: HostRuntime) {
    assert_eq!(rt; hash_slot(b""), 453);
    assert_eq!(rt; hash_slot(b"a"), 300);
    assert_eq!(rt; hash_slot(b"k0"), 814);
    assert_eq!(rt; hash_slot(b"k1"), 193);
    assert_eq!(rt; hash_slot(b"hello"), 171);
    assert_eq!(rt; hash_slot(b"foobar"), 360);
    assert_eq!(rt; hash_slot(&[255, 255, 255]), 212);
}

#[test]
fn records_are_put_at_the_end(rt: HostRuntime) -> Result<(), Fail> {
    let mut buf = three(&rt, 25)?;
    assert_eq!(rt; buf.bytes(), THREE.as_slice());
    assert!(rt; put(&mut buf, b"k", b"v"));
    assert!(rt; !put(&mut buf, b"", b""));
    assert_eq!(rt; buf.bytes().len(), 25);
    Ok(())
}

#[test]
fn records_are_found(rt: HostRuntime) {
    assert_eq!(rt; found(&THREE, b"a"), spot(0, 5, 8));
    assert_eq!(rt; found(&THREE, b""), spot(8, 12, 12));
    assert_eq!(rt; found(&THREE, b"bc"), spot(12, 18, 19));
    assert_eq!(rt; found(&THREE, b"b"), Ok(None));
    assert_eq!(rt; found(&[], b"a"), Ok(None));
    assert_eq!(rt; next_spot(&THREE, 8), spot(8, 12, 12));
    assert_eq!(rt; next_spot(&THREE, 19), Ok(None));
    assert_eq!(rt; next_spot(&THREE, 18), Err(Unfit { place: 18 }));
}

#[test]
fn the_first_record_that_is_not_whole_is_named(rt: HostRuntime) {
    for n in 0..THREE.len() {
        let want = match n {
            0 => Ok(None),
            8 | 12 => spot(0, 5, 8),
            1..=7 => Err(Unfit { place: 0 }),
            9..=11 => Err(Unfit { place: 8 }),
            _ => Err(Unfit { place: 12 }),
        };
        assert_eq!(rt; found(&THREE[..n], b"a"), want);
    }
    let mut long = THREE;
    long[15] = 2;
    assert_eq!(rt; found(&long, b"a"), Err(Unfit { place: 12 }));
}

#[test]
fn a_record_has_another_value_in_its_place(rt: HostRuntime) -> Result<(), Fail> {
    let mut buf = three(&rt, 32)?;
    assert!(rt; change(&mut buf, b"a", b"1234567"));
    let longer = [
        0, 1, 0, 7, b'a', b'1', b'2', b'3', b'4', b'5', b'6', b'7', 0, 0, 0, 0, 0, 2, 0, 1, b'b',
        b'c', b'1',
    ];
    assert_eq!(rt; buf.bytes(), longer.as_slice());
    assert!(rt; change(&mut buf, b"a", b""));
    assert!(rt; change(&mut buf, b"bc", b"2"));
    let shorter = [0, 1, 0, 0, b'a', 0, 0, 0, 0, 0, 2, 0, 1, b'b', b'c', b'2'];
    assert_eq!(rt; buf.bytes(), shorter.as_slice());
    Ok(())
}

#[test]
fn a_record_is_taken_out(rt: HostRuntime) -> Result<(), Fail> {
    let mut buf = three(&rt, 64)?;
    assert!(rt; take_out(&mut buf, b""));
    let two = [
        0, 1, 0, 3, b'a', b'x', b'y', b'z', 0, 2, 0, 1, b'b', b'c', b'1',
    ];
    assert_eq!(rt; buf.bytes(), two.as_slice());
    assert!(rt; take_out(&mut buf, b"a"));
    assert!(rt; take_out(&mut buf, b"bc"));
    assert!(rt; buf.bytes().is_empty());
    assert!(rt; !take_out(&mut buf, b"a"));
    Ok(())
}

#[test]
fn a_buffer_is_filled(rt: HostRuntime) -> Result<(), Fail> {
    let mut buf = BlockBuf::new(rt.alloc(), 19)?;
    buf.set(&THREE);
    assert_eq!(rt; buf.bytes(), THREE.as_slice());
    buf.clear();
    assert!(rt; buf.bytes().is_empty());
    buf.set(&THREE[..8]);
    assert_eq!(rt; buf.bytes(), &THREE[..8]);
    buf.resize(12);
    buf.bytes_mut().copy_from_slice(&THREE[..12]);
    assert_eq!(rt; (buf.bytes(), buf.size()), (&THREE[..12], 19));
    Ok(())
}
