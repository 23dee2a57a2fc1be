//! Blocks that are parked and come back, over stores of each kind.
ghost use Rattle.std.specs.Prelude.{◌≡◌, ◌≤◌, IfOk};

use crate::{Home, HomeEnd, StoreFault, YieldEnd};
use far_words::{Found, Stamp};
use shelf_link::{NullShelf, Shelf, ShelfMem};
use slice_seq::Slice;
use std::alloc::{AllocError, Global};
use std::process::Abort;
use std::test::Fail;

/// The SHA-256 of the one byte A.
const DIGEST_OF_A: [u8; 32] = [
    0x55, 0x9a, 0xea, 0xd0, 0x82, 0x64, 0xd5, 0x79, 0x5d, 0x39, 0x09, 0x71, 0x8c, 0xdd, 0x05, 0xab,
    0xd4, 0x95, 0x72, 0xe8, 0x4f, 0xe5, 0x55, 0x90, 0xee, 0xf3, 0x1a, 0x88, 0xa0, 0x8f, 0xdf, 0xfd,
];

/// A home with room for two slices of 64 bytes, which are held.
fn new_home<K: Shelf + Drop>(
    rt: &impl Abort,
    alloc: Global,
    shelf: K,
) -> Result<Home<K>, AllocError> {
    let mut home = Home::new(alloc, 7, 64, 2, shelf)?;
    for id in 0..2 {
        let slice = Slice::fresh(alloc, id, 64, 0)?;
        if slice.size() == home.size() && !home.is_full() {
            home.grant(slice);
        } else {
            slice.free();
        }
    }
    assert!(rt; home.granted() == 2);
    Ok(home)
}

fn add<K: Shelf>(rt: &impl Abort, home: &mut Home<K>, bytes: &[u8]) -> u64 {
    assert!(rt; home.prepare(1).is_ok());
    assert!(rt; home.room() >= 1);
    assert!(rt; !bytes.is_empty() && bytes.len() <= home.size() as usize);
    home.add(bytes)
}

fn park<K: Shelf>(rt: &impl Abort, home: &mut Home<K>, block: u64) -> Result<(), StoreFault> {
    assert!(rt; home.has(block));
    home.park(block)
}

fn load<K: Shelf>(rt: &impl Abort, home: &mut Home<K>, block: u64) -> Result<(), HomeEnd> {
    assert!(rt; home.has(block) && home.room() >= 1);
    home.load(block)
}

fn read<K: Shelf>(
    rt: &impl Abort,
    home: &mut Home<K>,
    block: u64,
    out: &mut [u8],
) -> Result<(), HomeEnd> {
    assert!(rt; home.has(block) && out.len() <= home.length(block) as usize);
    home.read(block, 0, out)
}

fn cut<K: Shelf>(rt: &impl Abort, home: &mut Home<K>, block: u64) {
    assert!(rt; home.has(block));
    home.cut(block);
}

/// The id and the number of a slice that a yield gives.
fn yield_one<K: Shelf>(home: &mut Home<K>) -> Result<Option<(u32, u64)>, StoreFault> {
    match home.yield_one() {
        YieldEnd::Slice(slice) => {
            let place = (slice.id(), slice.number());
            slice.free();
            Ok(Some(place))
        }
        YieldEnd::NoneHeld => Ok(None),
        YieldEnd::StoreFault => Err(StoreFault),
    }
}

#[test]
fn parks_and_loads(rt: HostRuntime) -> Result<(), Fail> {
    let fails = Vec::new(rt.alloc());
    let mut home = new_home(&rt, rt.alloc(), ShelfMem::new(rt.alloc(), fails))?;
    assert_eq!(rt; add(&rt, &mut home, b"ab"), 0);
    assert_eq!(rt; add(&rt, &mut home, b"c"), 1);
    assert_eq!(rt; (home.room(), home.next_number()), (0, 2));
    assert_eq!(rt; park(&rt, &mut home, 0), Ok(()));
    assert_eq!(rt; (home.place(0), home.place(1)), (None, Some((1, 2))));
    assert_eq!(rt; (home.used(), home.room()), (1, 0));

    let mut out = [0u8; 2];
    assert_eq!(rt; read(&rt, &mut home, 0, &mut out), Ok(()));
    assert!(rt; out == *b"ab");
    assert_eq!(rt; home.place(0), None, "a read takes no slice");

    // A third block needs a number besides, and takes the slice that the park left.
    assert_eq!(rt; add(&rt, &mut home, b"d"), 2);
    assert_eq!(rt; home.place(2), Some((0, 3)));
    assert_eq!(rt; park(&rt, &mut home, 1), Ok(()));
    assert_eq!(rt; home.prepare(1), Ok(()));
    assert_eq!(rt; load(&rt, &mut home, 0), Ok(()));
    assert_eq!(rt; home.place(0), Some((1, 3)));
    cut(&rt, &mut home, 1);
    assert!(rt; !home.has(1));
    assert_eq!(rt; home.next_number(), 1);
    Ok(())
}

#[test]
fn keeps_a_block_that_the_store_did_not_take(rt: HostRuntime) -> Result<(), Fail> {
    let mut fails = Vec::new(rt.alloc());
    fails.push(0)?;
    fails.push(2)?;
    let mut home = new_home(&rt, rt.alloc(), ShelfMem::new(rt.alloc(), fails))?;
    assert_eq!(rt; add(&rt, &mut home, b"ab"), 0);
    assert_eq!(rt; park(&rt, &mut home, 0), Err(StoreFault));
    assert_eq!(rt; home.place(0), Some((0, 2)));
    assert_eq!(rt; park(&rt, &mut home, 0), Ok(()));
    let mut out = [0u8; 2];
    assert_eq!(rt; read(&rt, &mut home, 0, &mut out), Err(HomeEnd::StoreFault));
    assert_eq!(rt; read(&rt, &mut home, 0, &mut out), Ok(()));
    assert!(rt; out == *b"ab");
    Ok(())
}

#[test]
fn yields_what_is_idle_and_parks_then(rt: HostRuntime) -> Result<(), Fail> {
    let mut fails = Vec::new(rt.alloc());
    fails.push(0)?;
    let mut home = new_home(&rt, rt.alloc(), ShelfMem::new(rt.alloc(), fails))?;
    assert_eq!(rt; add(&rt, &mut home, b"hi"), 0);
    home.clear_moves();
    assert_eq!(rt; yield_one(&mut home), Ok(Some((1, 1))));
    assert_eq!(rt; yield_one(&mut home), Err(StoreFault));
    assert_eq!(rt; (home.place(0), home.granted()), (Some((0, 2)), 1));
    assert_eq!(rt; yield_one(&mut home), Ok(Some((0, 2))));
    assert_eq!(rt; home.moves().freed(), [(0, 2)].as_slice());
    assert_eq!(rt; yield_one(&mut home), Ok(None));
    let mut out = [0u8; 2];
    assert_eq!(rt; read(&rt, &mut home, 0, &mut out), Ok(()));
    assert!(rt; out == *b"hi");
    Ok(())
}

#[test]
fn finds_nothing_in_a_void_store(rt: HostRuntime) -> Result<(), Fail> {
    let fails = Vec::new(rt.alloc());
    let mut home = new_home(&rt, rt.alloc(), NullShelf::new(fails))?;
    assert_eq!(rt; add(&rt, &mut home, b"A"), 0);
    assert_eq!(rt; park(&rt, &mut home, 0), Ok(()));
    let kept = Stamp {
        user: 7,
        block: 0,
        length: 1,
        digest: DIGEST_OF_A,
    };
    let found = Found::Absent;
    let mut out = [0u8; 1];
    assert_eq!(rt;
        read(&rt, &mut home, 0, &mut out),
        Err(HomeEnd::Damaged { kept, found })
    );
    assert_eq!(rt;
        load(&rt, &mut home, 0),
        Err(HomeEnd::Damaged { kept, found })
    );
    assert!(rt; home.has(0));
    assert_eq!(rt; home.length(0), 1);
    Ok(())
}
