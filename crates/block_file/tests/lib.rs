//! A file that grows over the blocks of a small home, leaves for its store and comes back.
ghost use Rattle.std.specs.Prelude.{◌≡◌, IfOk};
ghost use Rattle.block_file.specs.Files.{IsSound};

use crate::FileBody;
use block_home::{Home, HomeEnd, StoreFault};
use far_words::{Blob, Found, Stamp};
use shelf_link::{NullShelf, Shelf, ShelfMem};
use slice_seq::Slice;
use std::alloc::{AllocError, Global};
use std::process::Abort;
use std::test::Fail;

/// The SHA-256 of the two bytes ef.
const DIGEST_OF_EF: [u8; 32] = [
    0x4c, 0xa6, 0x69, 0xac, 0x37, 0x13, 0xd1, 0xf4, 0xae, 0xa0, 0x7d, 0xae, 0x8d, 0xcc, 0x0d, 0x1c,
    0x98, 0x67, 0xd2, 0x7e, 0xa8, 0x2a, 0x3b, 0xa4, 0xe6, 0x15, 0x8a, 0x42, 0x20, 0x6f, 0x95, 0x9b,
];

/// A user's home with three slices of 4 bytes.
fn new_home<K: Shelf + Drop>(
    rt: &impl Abort,
    alloc: Global,
    shelf: K,
) -> Result<Home<K>, AllocError> {
    let mut home = Home::new(alloc, 7, 4, 3, shelf)?;
    for id in 0..3 {
        let slice = Slice::fresh(alloc, id, 4, 0)?;
        if slice.size() == home.size() && !home.is_full() {
            home.grant(slice);
        } else {
            slice.free();
        }
    }
    assert!(rt; home.granted() == 3);
    Ok(home)
}

fn new_file<K>(alloc: Global, _home: &Home<K>) -> FileBody
    ensures { IsSound _home.now.seats result }
{
    FileBody::new(alloc)
}

fn need<K: Shelf>(rt: &impl Abort, file: &FileBody, home: &Home<K>, more: u64) -> u64 {
    assert!(rt; file.length() < 1000 && more < 1000);
    file.need(home, more)
}

/// An append as its callers make it: the home is asked for what it needs first.
fn append<K: Shelf>(
    rt: &impl Abort,
    file: &mut FileBody,
    home: &mut Home<K>,
    bytes: &[u8],
) -> Result<u64, HomeEnd>
    requires { IsSound home.old.seats file.old }
    ensures { IsSound home.new.seats file.new }
{
    assert!(rt; file.length() < 1000 && bytes.len() < 1000);
    let need = file.need(home, bytes.len() as u64);
    home.prepare(need)?;
    file.append(home, bytes)
}

/// A load as its callers make it.
fn load<K: Shelf>(file: &FileBody, home: &mut Home<K>) -> Result<(), HomeEnd>
    requires { IsSound home.old.seats file.now }
    ensures { IsSound home.new.seats file.now }
{
    let need = file.need_to_load(home);
    home.prepare(need)?;
    file.load(home)
}

fn expect_read<K: Shelf>(
    rt: &impl Abort,
    alloc: Global,
    file: &mut FileBody,
    home: &mut Home<K>,
    range: (u64, u32),
    expected: &[u8],
)
    requires { IsSound home.old.seats file.old }
    ensures { IsSound home.new.seats file.new }
{
    let mut out = Blob::new(alloc);
    assert!(rt; file.read(home, range.0, range.1, &mut out).is_ok());
    assert!(rt; out.items() == expected);
}

#[test]
fn is_a_list_of_bytes(rt: HostRuntime) -> Result<(), Fail> {
    let fails = Vec::new(rt.alloc());
    let mut home = new_home(&rt, rt.alloc(), ShelfMem::new(rt.alloc(), fails))?;
    let mut file = new_file(rt.alloc(), &home);
    assert_eq!(rt; append(&rt, &mut file, &mut home, b"abcdef"), Ok(6));
    assert_eq!(rt; append(&rt, &mut file, &mut home, b"gh"), Ok(8));
    assert_eq!(rt;
        (file.block(0), file.block(1), file.block(2)),
        (Some(0), Some(1), None)
    );
    assert_eq!(rt; append(&rt, &mut file, &mut home, b"i"), Ok(9));
    assert_eq!(rt; (file.block(2), file.length()), (Some(2), 9));

    let refused = append(&rt, &mut file, &mut home, b"jklm");
    assert_eq!(rt;
        refused,
        Err(HomeEnd::Exhausted {
            need: 1,
            used: 3,
            granted: 3
        })
    );
    assert_eq!(rt; append(&rt, &mut file, &mut home, b"jkl"), Ok(12));
    expect_read(
        &rt,
        rt.alloc(),
        &mut file,
        &mut home,
        (0, 20),
        b"abcdefghijkl",
    );
    expect_read(&rt, rt.alloc(), &mut file, &mut home, (3, 6), b"defghi");
    expect_read(&rt, rt.alloc(), &mut file, &mut home, (12, 1), b"");
    expect_read(&rt, rt.alloc(), &mut file, &mut home, (99, 4), b"");

    file.cut_all(&mut home);
    assert_eq!(rt;
        (file.length(), file.block(0), home.used(), home.room()),
        (0, None, 0, 3)
    );
    Ok(())
}

#[test]
fn grows_after_it_left(rt: HostRuntime) -> Result<(), Fail> {
    let fails = Vec::new(rt.alloc());
    let mut home = new_home(&rt, rt.alloc(), ShelfMem::new(rt.alloc(), fails))?;
    let mut file = new_file(rt.alloc(), &home);
    assert_eq!(rt; append(&rt, &mut file, &mut home, b"abcdef"), Ok(6));
    assert_eq!(rt; file.park(&mut home), Ok(()));
    assert_eq!(rt; (home.used(), file.need_to_load(&home)), (0, 2));
    expect_read(&rt, rt.alloc(), &mut file, &mut home, (2, 9), b"cdef");
    assert_eq!(rt; home.used(), 0, "a read takes no slice");

    // The parked last block comes in first, and then the new one.
    assert_eq!(rt; need(&rt, &file, &home, 0), 0);
    assert_eq!(rt; need(&rt, &file, &home, 2), 1);
    assert_eq!(rt; need(&rt, &file, &home, 3), 2);
    assert_eq!(rt; append(&rt, &mut file, &mut home, b"ghi"), Ok(9));
    assert_eq!(rt;
        (home.place(0), home.place(1), home.place(2)),
        (None, Some((0, 3)), Some((1, 3)))
    );
    expect_read(&rt, rt.alloc(), &mut file, &mut home, (0, 9), b"abcdefghi");
    Ok(())
}

#[test]
fn comes_back(rt: HostRuntime) -> Result<(), Fail> {
    let fails = Vec::new(rt.alloc());
    let mut home = new_home(&rt, rt.alloc(), ShelfMem::new(rt.alloc(), fails))?;
    let mut file = new_file(rt.alloc(), &home);
    assert_eq!(rt; append(&rt, &mut file, &mut home, b"abcdef"), Ok(6));
    assert_eq!(rt; file.park(&mut home), Ok(()));
    assert_eq!(rt; load(&file, &mut home), Ok(()));
    assert_eq!(rt;
        (home.place(0), home.place(1), file.need_to_load(&home)),
        (Some((0, 3)), Some((1, 3)), 0)
    );
    assert_eq!(rt; file.park(&mut home), Ok(()));
    file.cut_all(&mut home);
    assert_eq!(rt;
        (file.length(), home.has(0), home.has(1), home.room()),
        (0, false, false, 3)
    );
    Ok(())
}

#[test]
fn stops_where_the_store_fails(rt: HostRuntime) -> Result<(), Fail> {
    let mut fails = Vec::new(rt.alloc());
    fails.push(1)?;
    fails.push(3)?;
    let mut home = new_home(&rt, rt.alloc(), ShelfMem::new(rt.alloc(), fails))?;
    let mut file = new_file(rt.alloc(), &home);
    assert_eq!(rt; append(&rt, &mut file, &mut home, b"abcdef"), Ok(6));
    assert_eq!(rt; file.park(&mut home), Err(StoreFault));
    assert_eq!(rt; (home.place(0), home.place(1)), (None, Some((1, 2))));
    assert_eq!(rt; file.park(&mut home), Ok(()));
    assert_eq!(rt;
        append(&rt, &mut file, &mut home, b"g"),
        Err(HomeEnd::StoreFault)
    );
    assert_eq!(rt; (file.length(), home.used()), (6, 0));
    assert_eq!(rt; append(&rt, &mut file, &mut home, b"g"), Ok(7));
    expect_read(&rt, rt.alloc(), &mut file, &mut home, (0, 9), b"abcdefg");
    Ok(())
}

#[test]
fn finds_nothing_in_a_void_store(rt: HostRuntime) -> Result<(), Fail> {
    let fails = Vec::new(rt.alloc());
    let mut home = new_home(&rt, rt.alloc(), NullShelf::new(fails))?;
    let mut file = new_file(rt.alloc(), &home);
    assert_eq!(rt; append(&rt, &mut file, &mut home, b"abcdef"), Ok(6));
    assert_eq!(rt; file.park(&mut home), Ok(()));
    let kept = Stamp {
        user: 7,
        block: 1,
        length: 2,
        digest: DIGEST_OF_EF,
    };
    let found = Found::Absent;
    let mut out = Blob::new(rt.alloc());
    assert_eq!(rt;
        file.read(&mut home, 4, 1, &mut out),
        Err(HomeEnd::Damaged { kept, found })
    );
    assert_eq!(rt;
        append(&rt, &mut file, &mut home, b"g"),
        Err(HomeEnd::Damaged { kept, found })
    );
    assert_eq!(rt; file.read(&mut home, 6, 1, &mut out), Ok(()));
    assert_eq!(rt; file.length(), 6);
    Ok(())
}
