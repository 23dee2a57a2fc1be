//! A list of blocks that leaves the slices of a small home and comes back.
ghost use Rattle.std.specs.Prelude.{IfOk};
ghost use Rattle.block_list.specs.Lists.{AreThere};

use crate::{count_parked, cut_blocks, load_blocks, park_blocks, park_numbers};
use block_home::{Home, HomeEnd, StoreFault};
use far_words::{Found, Stamp};
use shelf_link::{NullShelf, Shelf, ShelfMem};
use slice_seq::Slice;
use std::alloc::{AllocError, Global};
use std::process::Abort;
use std::test::Fail;

/// The SHA-256 of the two bytes ef.
const DIGEST_OF_EF: [u8; 32] = [
    0x4c, 0xa6, 0x69, 0xac, 0x37, 0x13, 0xd1, 0xf4, 0xae, 0xa0, 0x7d, 0xae, 0x8d, 0xcc, 0x0d, 0x1c,
    0x98, 0x67, 0xd2, 0x7e, 0xa8, 0x2a, 0x3b, 0xa4, 0xe6, 0x15, 0x8a, 0x42, 0x20, 0x6f, 0x95, 0x9b,
];

/// A user's home with three slices of 4 bytes.
fn new_home<K: Shelf + Drop>(
    rt: &impl Abort,
    alloc: Global,
    shelf: K,
) -> Result<Home<K>, AllocError> {
    let mut home = Home::new(alloc, 7, 4, 3, shelf)?;
    for id in 0..3 {
        let slice = Slice::fresh(alloc, id, 4, 0)?;
        if slice.size() == home.size() && !home.is_full() {
            home.grant(slice);
        } else {
            slice.free();
        }
    }
    assert!(rt; home.granted() == 3);
    Ok(home)
}

/// A list of no block.
fn no_blocks<K>(alloc: Global, _home: &Home<K>) -> Vec<u64>
    ensures { AreThere _home.now.seats result.items }
{
    Vec::new(alloc)
}

/// One block more, at the list's end.
fn add<K: Shelf>(
    rt: &impl Abort,
    home: &mut Home<K>,
    blocks: &mut Vec<u64>,
    bytes: &[u8],
) -> Result<(), AllocError>
    requires { AreThere home.old.seats blocks.old.items }
    ensures { AreThere home.new.seats blocks.new.items }
{
    blocks.reserve(1)?;
    assert!(rt; home.prepare(1).is_ok());
    assert!(rt; !bytes.is_empty() && bytes.len() <= home.size() as usize);
    let block = home.add(bytes);
    blocks.push_reserved(block);
    Ok(())
}

/// The other way round.
fn turn<K>(_home: &Home<K>, blocks: &mut Vec<u64>)
    requires { AreThere _home.now.seats blocks.old.items }
    ensures { AreThere _home.now.seats blocks.new.items }
{
    blocks.reverse();
}

fn park<K: Shelf>(home: &mut Home<K>, blocks: &Vec<u64>) -> Result<(), StoreFault>
    requires { AreThere home.old.seats blocks.now.items }
    ensures { AreThere home.new.seats blocks.now.items }
{
    park_blocks(home, blocks)
}

fn load<K: Shelf>(home: &mut Home<K>, blocks: &Vec<u64>) -> Result<(), HomeEnd>
    requires { AreThere home.old.seats blocks.now.items }
    ensures { AreThere home.new.seats blocks.now.items }
{
    load_blocks(home, blocks)
}

/// Three blocks, the last one made first in the list.
fn three_blocks<K: Shelf>(
    rt: &impl Abort,
    alloc: Global,
    home: &mut Home<K>,
) -> Result<Vec<u64>, AllocError>
    ensures { IfOk result (λ blocks. AreThere home.new.seats blocks.items) }
{
    let mut blocks = no_blocks(alloc, home);
    add(rt, home, &mut blocks, b"ab")?;
    add(rt, home, &mut blocks, b"cd")?;
    add(rt, home, &mut blocks, b"ef")?;
    turn(home, &mut blocks);
    Ok(blocks)
}

#[test]
fn goes_and_comes_in_the_lists_order(rt: HostRuntime) -> Result<(), Fail> {
    let mut fails = Vec::new(rt.alloc());
    fails.push(1)?;
    fails.push(5)?;
    let mut home = new_home(&rt, rt.alloc(), ShelfMem::new(rt.alloc(), fails))?;
    let mut blocks = three_blocks(&rt, rt.alloc(), &mut home)?;
    assert_eq!(rt; park(&mut home, &blocks), Err(StoreFault));
    assert_eq!(rt;
        (home.place(2), home.place(1), home.place(0)),
        (None, Some((1, 2)), Some((0, 2)))
    );
    assert_eq!(rt; park(&mut home, &blocks), Ok(()));
    assert_eq!(rt; (home.used(), count_parked(&home, &blocks)), (0, 3));

    assert_eq!(rt; load(&mut home, &blocks), Err(HomeEnd::StoreFault));
    assert_eq!(rt;
        (home.place(2), home.place(1), home.place(0)),
        (Some((0, 3)), None, None)
    );
    assert_eq!(rt; load(&mut home, &blocks), Ok(()));
    assert_eq!(rt;
        (home.place(2), home.place(1), home.place(0)),
        (Some((0, 3)), Some((1, 3)), Some((2, 3)))
    );
    cut_blocks(&mut home, &blocks);
    assert_eq!(rt; (home.has(0), home.has(2), home.room()), (false, false, 3));
    Ok(())
}

#[test]
fn goes_in_the_order_of_the_numbers(rt: HostRuntime) -> Result<(), Fail> {
    let mut fails = Vec::new(rt.alloc());
    fails.push(1)?;
    let mut home = new_home(&rt, rt.alloc(), ShelfMem::new(rt.alloc(), fails))?;
    let mut blocks = three_blocks(&rt, rt.alloc(), &mut home)?;
    assert!(rt; blocks.as_slice() == [2, 1, 0].as_slice());
    assert_eq!(rt; park_numbers(&mut home, &mut blocks), Err(StoreFault));
    assert_eq!(rt;
        (home.place(0), home.place(1), home.place(2)),
        (None, Some((1, 2)), Some((2, 2)))
    );
    assert!(rt; blocks.as_slice() == [0, 1, 2].as_slice());
    Ok(())
}

#[test]
fn lacks_slices_where_too_few_are_unused(rt: HostRuntime) -> Result<(), Fail> {
    let fails = Vec::new(rt.alloc());
    let mut home = new_home(&rt, rt.alloc(), ShelfMem::new(rt.alloc(), fails))?;
    let mut blocks = three_blocks(&rt, rt.alloc(), &mut home)?;
    assert_eq!(rt; park(&mut home, &blocks), Ok(()));
    add(&rt, &mut home, &mut blocks, b"g")?;
    let (need, used, granted) = (3, 1, 3);
    assert_eq!(rt;
        load(&mut home, &blocks),
        Err(HomeEnd::Exhausted {
            need,
            used,
            granted
        })
    );
    assert_eq!(rt; (home.used(), count_parked(&home, &blocks)), (1, 3));
    Ok(())
}

#[test]
fn finds_nothing_in_a_void_store(rt: HostRuntime) -> Result<(), Fail> {
    let fails = Vec::new(rt.alloc());
    let mut home = new_home(&rt, rt.alloc(), NullShelf::new(fails))?;
    let blocks = three_blocks(&rt, rt.alloc(), &mut home)?;
    assert_eq!(rt; park(&mut home, &blocks), Ok(()));
    let kept = Stamp {
        user: 7,
        block: 2,
        length: 2,
        digest: DIGEST_OF_EF,
    };
    let found = Found::Absent;
    assert_eq!(rt;
        load(&mut home, &blocks),
        Err(HomeEnd::Damaged { kept, found })
    );
    assert_eq!(rt; (home.used(), count_parked(&home, &blocks)), (0, 3));
    Ok(())
}
