//! Queues over the blocks of a small home, that leave for its store and come back.
ghost use Rattle.std.specs.Prelude.{◌≡◌};
ghost use Rattle.block_queue.specs.Queues.{IsSound};

use crate::QueueBody;
use block_home::{Home, HomeEnd, StoreFault};
use far_words::{Blob, Found, Stamp};
use shelf_link::{NullShelf, Shelf, ShelfMem};
use slice_seq::Slice;
use std::alloc::{AllocError, Global};
use std::process::Abort;
use std::test::Fail;

/// The SHA-256 of the six bytes 00 00 00 02 61 62.
const DIGEST_OF_AB: [u8; 32] = [
    0xd2, 0xf2, 0x95, 0xbb, 0x8c, 0x9d, 0x19, 0x0a, 0xf7, 0x82, 0x52, 0xb5, 0x27, 0x41, 0xeb, 0x32,
    0xcc, 0xfb, 0xe1, 0xfc, 0x59, 0x94, 0x2d, 0x13, 0xaf, 0x20, 0xa7, 0x63, 0xf6, 0x19, 0x67, 0x0e,
];

/// A user's home with two slices of 16 bytes.
fn new_home<K: Shelf + Drop>(
    rt: &impl Abort,
    alloc: Global,
    shelf: K,
) -> Result<Home<K>, AllocError> {
    let mut home = Home::new(alloc, 7, 16, 2, shelf)?;
    for id in 0..2 {
        let slice = Slice::fresh(alloc, id, 16, 0)?;
        if slice.size() == home.size() && !home.is_full() {
            home.grant(slice);
        } else {
            slice.free();
        }
    }
    assert!(rt; home.granted() == 2);
    Ok(home)
}

fn new_queue<K>(alloc: Global, _home: &Home<K>) -> QueueBody
    ensures { IsSound _home.now.seats result }
{
    QueueBody::new(alloc)
}

fn push<K: Shelf>(
    rt: &impl Abort,
    queue: &mut QueueBody,
    home: &mut Home<K>,
    item: &[u8],
) -> Result<(), HomeEnd>
    requires { IsSound home.old.seats queue.old }
    ensures { IsSound home.new.seats queue.new }
{
    assert!(rt; queue.count() < 1000 && item.len() + 4 <= home.size() as usize);
    queue.push(home, item)
}

/// A pop whose item is compared.
fn expect_pop<K: Shelf>(
    rt: &impl Abort,
    queue: &mut QueueBody,
    home: &mut Home<K>,
    wanted: Option<&[u8]>,
)
    requires { IsSound home.old.seats queue.old }
    ensures { IsSound home.new.seats queue.new }
{
    match queue.pop(home) {
        Ok(item) => assert!(rt; is_item(&item, wanted)),
        Err(_) => assert!(rt; false),
    }
}

/// A pop that is refused.
fn expect_no_pop<K: Shelf>(
    rt: &impl Abort,
    queue: &mut QueueBody,
    home: &mut Home<K>,
    wanted: HomeEnd,
)
    requires { IsSound home.old.seats queue.old }
    ensures { IsSound home.new.seats queue.new }
{
    match queue.pop(home) {
        Ok(_) => assert!(rt; false),
        Err(end) => assert_eq!(rt; end, wanted),
    }
}

fn expect_front<K: Shelf>(
    rt: &impl Abort,
    queue: &mut QueueBody,
    home: &mut Home<K>,
    wanted: Option<&[u8]>,
)
    requires { IsSound home.old.seats queue.old }
    ensures { IsSound home.new.seats queue.new }
{
    match queue.front(home) {
        Ok(item) => assert!(rt; is_item(&item, wanted)),
        Err(_) => assert!(rt; false),
    }
}

fn is_item(item: &Option<Blob>, wanted: Option<&[u8]>) -> bool {
    match (item, wanted) {
        (Some(item), Some(wanted)) => item.items() == wanted,
        (None, None) => true,
        _ => false,
    }
}

#[test]
fn gives_items_in_order(rt: HostRuntime) -> Result<(), Fail> {
    let fails = Vec::new(rt.alloc());
    let mut home = new_home(&rt, rt.alloc(), ShelfMem::new(rt.alloc(), fails))?;
    let mut queue = new_queue(rt.alloc(), &home);
    expect_pop(&rt, &mut queue, &mut home, None);

    // Two items of two bytes, then one of four, fill 4 + 2 and 4 + 2 and 4 + 4 bytes: the third doesn't fit in 16.
    assert_eq!(rt; push(&rt, &mut queue, &mut home, b"ab"), Ok(()));
    assert_eq!(rt; push(&rt, &mut queue, &mut home, b"cd"), Ok(()));
    assert_eq!(rt; home.used(), 1);
    assert_eq!(rt; push(&rt, &mut queue, &mut home, b"efgh"), Ok(()));
    assert_eq!(rt;
        (home.used(), queue.block(0), queue.block(1)),
        (2, Some(0), Some(1))
    );
    assert_eq!(rt; (queue.count(), queue.block(2)), (3, None));

    // An empty item fits behind the last one, and one of 12 bytes needs a block of its own.
    assert_eq!(rt; push(&rt, &mut queue, &mut home, b""), Ok(()));
    assert_eq!(rt;
        push(&rt, &mut queue, &mut home, b"ijklmnopqrst"),
        Err(HomeEnd::Exhausted {
            need: 1,
            used: 2,
            granted: 2
        })
    );
    expect_front(&rt, &mut queue, &mut home, Some(b"ab"));
    expect_pop(&rt, &mut queue, &mut home, Some(b"ab"));
    assert_eq!(rt; home.used(), 2, "a block with an unread item stays");
    expect_pop(&rt, &mut queue, &mut home, Some(b"cd"));
    assert_eq!(rt; (home.used(), queue.block(0)), (1, Some(1)));

    // The number and the slice of the block that went are the next ones.
    assert_eq!(rt; push(&rt, &mut queue, &mut home, b"ijklmnopqrst"), Ok(()));
    assert_eq!(rt; (queue.block(1), home.place(0)), (Some(0), Some((0, 3))));
    expect_pop(&rt, &mut queue, &mut home, Some(b"efgh"));
    expect_pop(&rt, &mut queue, &mut home, Some(b""));
    expect_pop(&rt, &mut queue, &mut home, Some(b"ijklmnopqrst"));
    expect_pop(&rt, &mut queue, &mut home, None);
    assert_eq!(rt; (home.used(), queue.count(), queue.block(0)), (0, 0, None));
    Ok(())
}

#[test]
fn read_items_take_their_room(rt: HostRuntime) -> Result<(), Fail> {
    let fails = Vec::new(rt.alloc());
    let mut home = new_home(&rt, rt.alloc(), ShelfMem::new(rt.alloc(), fails))?;
    let mut queue = new_queue(rt.alloc(), &home);
    assert_eq!(rt; push(&rt, &mut queue, &mut home, b"abcd"), Ok(()));
    assert_eq!(rt; push(&rt, &mut queue, &mut home, b"e"), Ok(()));
    expect_pop(&rt, &mut queue, &mut home, Some(b"abcd"));
    assert_eq!(rt; push(&rt, &mut queue, &mut home, b"f"), Ok(()));
    assert_eq!(rt; (queue.block(1), home.used()), (Some(1), 2));
    queue.cut_all(&mut home);
    assert_eq!(rt; (queue.count(), home.used()), (0, 0));
    Ok(())
}

#[test]
fn leaves_and_comes_back(rt: HostRuntime) -> Result<(), Fail> {
    let fails = Vec::new(rt.alloc());
    let mut home = new_home(&rt, rt.alloc(), ShelfMem::new(rt.alloc(), fails))?;
    let mut queue = new_queue(rt.alloc(), &home);
    assert_eq!(rt; push(&rt, &mut queue, &mut home, b"abcdefghijk"), Ok(()));
    assert_eq!(rt; push(&rt, &mut queue, &mut home, b"lmn"), Ok(()));
    assert_eq!(rt; queue.park(&mut home), Ok(()));
    assert_eq!(rt; (home.used(), queue.need_to_load(&home)), (0, 2));
    expect_front(&rt, &mut queue, &mut home, Some(b"abcdefghijk"));
    expect_pop(&rt, &mut queue, &mut home, Some(b"abcdefghijk"));
    assert_eq!(rt;
        (home.used(), home.has(0)),
        (0, false),
        "a pop takes no slice"
    );

    // The last block comes in, since the item fits there, and the next one needs a new block.
    assert_eq!(rt; push(&rt, &mut queue, &mut home, b"op"), Ok(()));
    assert_eq!(rt; (home.place(1), queue.block(1)), (Some((0, 3)), None));
    assert_eq!(rt; push(&rt, &mut queue, &mut home, b"q"), Ok(()));
    assert_eq!(rt; queue.park(&mut home), Ok(()));
    assert_eq!(rt; queue.load(&mut home), Ok(()));

    // The block in front comes first, though its number is the greater one.
    assert_eq!(rt; (queue.block(0), queue.block(1)), (Some(1), Some(0)));
    assert_eq!(rt;
        (home.place(1), home.place(0)),
        (Some((0, 4)), Some((1, 4)))
    );
    expect_pop(&rt, &mut queue, &mut home, Some(b"lmn"));
    expect_pop(&rt, &mut queue, &mut home, Some(b"op"));
    expect_pop(&rt, &mut queue, &mut home, Some(b"q"));
    expect_pop(&rt, &mut queue, &mut home, None);
    Ok(())
}

#[test]
fn keeps_its_items_where_the_store_fails(rt: HostRuntime) -> Result<(), Fail> {
    // The calls are: put, put that fails, put, get that fails, get, get that fails, get.
    let mut fails = Vec::new(rt.alloc());
    fails.push(1)?;
    fails.push(3)?;
    fails.push(5)?;
    let mut home = new_home(&rt, rt.alloc(), ShelfMem::new(rt.alloc(), fails))?;
    let mut queue = new_queue(rt.alloc(), &home);
    assert_eq!(rt; push(&rt, &mut queue, &mut home, b"abcdefghijk"), Ok(()));
    assert_eq!(rt; push(&rt, &mut queue, &mut home, b"lmn"), Ok(()));
    assert_eq!(rt; queue.park(&mut home), Err(StoreFault));
    assert_eq!(rt; (home.place(0), home.place(1)), (None, Some((1, 2))));
    assert_eq!(rt; queue.park(&mut home), Ok(()));
    expect_no_pop(&rt, &mut queue, &mut home, HomeEnd::StoreFault);
    assert_eq!(rt; queue.count(), 2);
    expect_front(&rt, &mut queue, &mut home, Some(b"abcdefghijk"));
    assert_eq!(rt;
        push(&rt, &mut queue, &mut home, b"op"),
        Err(HomeEnd::StoreFault)
    );
    assert_eq!(rt; (queue.count(), home.used()), (2, 0));
    expect_pop(&rt, &mut queue, &mut home, Some(b"abcdefghijk"));
    Ok(())
}

#[test]
fn finds_nothing_in_a_void_store(rt: HostRuntime) -> Result<(), Fail> {
    let fails = Vec::new(rt.alloc());
    let mut home = new_home(&rt, rt.alloc(), NullShelf::new(fails))?;
    let mut queue = new_queue(rt.alloc(), &home);
    assert_eq!(rt; push(&rt, &mut queue, &mut home, b"ab"), Ok(()));
    assert_eq!(rt; queue.park(&mut home), Ok(()));
    let kept = Stamp {
        user: 7,
        block: 0,
        length: 6,
        digest: DIGEST_OF_AB,
    };
    let found = Found::Absent;
    assert_eq!(rt;
        push(&rt, &mut queue, &mut home, b"c"),
        Err(HomeEnd::Damaged { kept, found })
    );
    expect_no_pop(&rt, &mut queue, &mut home, HomeEnd::Damaged { kept, found });
    assert_eq!(rt; queue.count(), 1);
    Ok(())
}
