//! Moves are kept as they came, and limits have their numbers.

use crate::{MOST_IN_FILE, MOST_IN_QUEUE, Moves, Path, PlacedRow};
use std::test::Fail;

#[test]
fn moves_are_kept(rt: HostRuntime) -> Result<(), Fail> {
    let mut moves = Moves::new(rt.alloc(), 1)?;
    moves.push_freed(7, 3);
    let Some(path) = Path::parse(b"job/in") else {
        panic!(rt; "it is a path")
    };
    moves.push_placed(PlacedRow {
        slice: 2,
        number: 5,
        path,
        index: 0,
    })?;
    assert_eq!(rt; moves.freed(), [(7, 3)].as_slice());
    assert_eq!(rt; moves.placed().len(), 1);
    assert_eq!(rt; moves.placed()[0].number, 5);
    Ok(())
}

#[test]
fn limits_have_their_numbers(rt: HostRuntime) {
    assert_eq!(rt; MOST_IN_FILE, 1_099_511_627_776);
    assert_eq!(rt; MOST_IN_QUEUE, 1_099_511_627_776);
}
