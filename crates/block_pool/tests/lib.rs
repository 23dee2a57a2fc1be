//! A pool and the moves that are due, by numbers.
ghost use Rattle.std.specs.Prelude.{◌≡◌, ◌<◌, IsTrue, IfOk};

use crate::{Due, DueMove, Pool, plan_moves};
use slice_seq::Slice;
use std::test::Fail;

/// The ids and numbers of the slices that are left, in the order in which they come out.
fn drain(rt: &HostRuntime, mut pool: Pool) -> Result<Vec<(u32, u64)>, Fail> {
    let mut rows = Vec::with_capacity(rt.alloc(), pool.count() as usize)?;
    while let Some(slice) = pool.take_lowest() {
        let row = (slice.id(), slice.number());
        slice.free();
        rows.push(row)?;
    }
    Ok(rows)
}

#[test]
fn the_lowest_slice_comes_first(rt: HostRuntime) -> Result<(), Fail> {
    let mut pool = Pool::new(rt.alloc(), 3, 64)?;
    assert_eq!(rt; pool.count(), 3);
    let Some(slice) = pool.take_lowest() else {
        return Err(Fail::from("a free slice"));
    };
    assert_eq!(rt; (slice.id(), slice.number(), slice.size()), (0, 0, 64));
    assert_eq!(rt; pool.count(), 2);
    pool.give_back(slice.grant());
    assert_eq!(rt; pool.count(), 3);
    assert_eq!(rt;
        drain(&rt, pool)?.as_slice(),
        [(0, 1), (1, 0), (2, 0)].as_slice()
    );
    Ok(())
}

#[test]
fn an_empty_pool_gives_nothing(rt: HostRuntime) -> Result<(), Fail> {
    let mut pool = Pool::new(rt.alloc(), 1, 64)?;
    let Some(slice) = pool.take_lowest() else {
        return Err(Fail::from("a free slice"));
    };
    match pool.take_lowest() {
        None => pool.give_back(slice.grant().grant()),
        Some(other) => {
            other.free();
            slice.free();
        }
    }
    assert_eq!(rt; pool.count(), 1);
    assert_eq!(rt; drain(&rt, pool)?.as_slice(), [(0, 2)].as_slice());
    Ok(())
}

#[test]
fn yields_come_before_grants(rt: HostRuntime) -> Result<(), Fail> {
    let mut due = Due::new(rt.alloc(), 6)?;
    assert!(rt; due.items().is_empty());
    plan_moves(&[3, 0, 2, 1], &[1, 2, 2, 0], &mut due);
    let yields = |user| DueMove::Yield { user };
    assert_eq!(rt;
        due.items(),
        [
            yields(0),
            yields(0),
            yields(3),
            DueMove::Grant { user: 1 },
            DueMove::Grant { user: 1 }
        ]
        .as_slice()
    );
    // What stood there is gone.
    plan_moves(&[0, 0], &[6, 0], &mut due);
    assert_eq!(rt; due.items(), [DueMove::Grant { user: 0 }; 6].as_slice());
    plan_moves(&[], &[], &mut due);
    assert!(rt; due.items().is_empty());
    Ok(())
}
