//! Draws, grants and requests in turn, over stores in memory.
ghost use Rattle.std.specs.Prelude.{◌≡◌, length, IfOk};

use crate::{Core, CoreEvent};
use far_asks::{Kind, Outcome, Reply, Request};
use far_words::{Blob, Path, PlacedRow};
use karma_rule::Shape;
use shelf_link::ShelfMem;
use std::process::Abort;
use std::test::Fail;

fn drawn(slice: u32) -> Outcome {
    Outcome::Slice { slice, number: 0 }
}

fn granted(slice: u32) -> Outcome {
    Outcome::Granted { slice, number: 1 }
}

fn absent_user(users: u32) -> Outcome {
    Outcome::Reply(Reply::AbsentUser { users })
}

fn length(path: &Path, user: u32) -> CoreEvent {
    CoreEvent::Ask {
        user,
        request: Request::Length { path: path.copy() },
    }
}

fn asked(request: Request) -> CoreEvent {
    CoreEvent::Ask { user: 0, request }
}

/// Block `index` of a file in the slice of the same number, at that slice's first use.
fn row(path: &Path, index: u32) -> PlacedRow {
    PlacedRow {
        slice: index,
        number: 2,
        path: path.copy(),
        index: u64::from(index),
    }
}

/// One event. Its outcome is this, and these are the rows of the blocks that were placed.
fn expect(
    rt: &impl Abort,
    core: &mut Core<ShelfMem>,
    event: CoreEvent,
    outcome: Outcome,
    rows: &[PlacedRow],
) {
    let told = core.step(event);
    assert_eq!(rt; told, outcome);
    assert!(rt; core.moves().freed().is_empty() && core.moves().placed() == rows);
}

/// One store, whose calls of the listed numbers fail.
fn one_shelf(rt: &HostRuntime, fails: &[u64]) -> Result<Vec<ShelfMem>, Fail>
    ensures { IfOk result (λ shelves. length shelves.items ≡ 1) }
{
    let alloc = rt.alloc();
    let mut shelves = Vec::new(alloc);
    shelves.push(ShelfMem::new(alloc, Vec::from_slice(alloc, fails)?))?;
    Ok(shelves)
}

#[test]
fn one_event_after_the_other(rt: HostRuntime) -> Result<(), Fail> {
    let shape = Shape::store(1, 2, 1, 0, 64)?;
    let mut core = Core::new(rt.alloc(), shape, one_shelf(&rt, &[])?)?;
    let path = Path::parse(b"f").ok_or("a path")?;
    for (event, outcome) in [
        (CoreEvent::Grant { user: 1 }, absent_user(1)),
        (CoreEvent::Grant { user: 0 }, Outcome::HandEmpty),
        (CoreEvent::Draw, drawn(0)),
        (CoreEvent::Draw, drawn(1)),
        (CoreEvent::Draw, Outcome::PoolEmpty),
        (CoreEvent::Grant { user: 1 }, absent_user(1)),
        // The slice that came last goes first.
        (CoreEvent::Grant { user: 0 }, granted(1)),
        (length(&path, 0), Outcome::Reply(Reply::Absent)),
        (length(&path, 1), absent_user(1)),
    ] {
        expect(&rt, &mut core, event, outcome, &[]);
    }
    assert_eq!(rt; core.hand(), 1);
    let tenants = core.finish();
    assert_eq!(rt; tenants.len(), 1);
    assert_eq!(rt; tenants[0].held(), 1);
    Ok(())
}

#[test]
fn moves_of_the_last_event_alone(rt: HostRuntime) -> Result<(), Fail> {
    let shape = Shape::store(1, 3, 2, 0, 64)?;
    let mut core = Core::new(rt.alloc(), shape, one_shelf(&rt, &[])?)?;
    for slice in 0..2 {
        expect(&rt, &mut core, CoreEvent::Draw, drawn(slice), &[]);
        expect(
            &rt,
            &mut core,
            CoreEvent::Grant { user: 0 },
            granted(slice),
            &[],
        );
    }
    let path = Path::parse(b"f").ok_or("a path")?;
    let make = CoreEvent::Ask {
        user: 0,
        request: Request::Make {
            path: path.copy(),
            kind: Kind::File,
            span: 100,
        },
    };
    expect(&rt, &mut core, make, Outcome::Reply(Reply::Done), &[]);
    let append = CoreEvent::Ask {
        user: 0,
        request: Request::Append {
            path: path.copy(),
            bytes: Blob::from_slice(rt.alloc(), &[97; 65])?,
        },
    };
    let grown = Outcome::Reply(Reply::Number(65));
    let rows = [row(&path, 0), row(&path, 1)];
    expect(&rt, &mut core, append, grown, &rows);
    expect(&rt, &mut core, CoreEvent::Draw, drawn(2), &[]);
    Ok(())
}

#[test]
fn a_file_is_parked_and_read(rt: HostRuntime) -> Result<(), Fail> {
    let shape = Shape::store(1, 1, 1, 0, 64)?;
    let mut core = Core::new(rt.alloc(), shape, one_shelf(&rt, &[0])?)?;
    let path = Path::parse(b"f").ok_or("a path")?;
    expect(&rt, &mut core, CoreEvent::Draw, drawn(0), &[]);
    expect(
        &rt,
        &mut core,
        CoreEvent::Grant { user: 0 },
        granted(0),
        &[],
    );
    let make = Request::Make {
        path: path.copy(),
        kind: Kind::File,
        span: 9,
    };
    let append = Request::Append {
        path: path.copy(),
        bytes: Blob::from_slice(rt.alloc(), b"hi")?,
    };
    let read = Request::Read {
        path: path.copy(),
        from: 0,
        len: 9,
    };
    let bytes = Blob::from_slice(rt.alloc(), b"hi")?;
    expect(
        &rt,
        &mut core,
        asked(make),
        Outcome::Reply(Reply::Done),
        &[],
    );
    expect(
        &rt,
        &mut core,
        asked(append),
        Outcome::Reply(Reply::Number(2)),
        &[row(&path, 0)],
    );
    // The first call of the store fails, and nothing moves.
    let park = Request::Park { path: path.copy() };
    expect(
        &rt,
        &mut core,
        asked(park),
        Outcome::Reply(Reply::StoreFault),
        &[],
    );
    let park = Request::Park { path: path.copy() };
    assert_eq!(rt; core.step(asked(park)), Outcome::Reply(Reply::Done));
    assert!(rt; core.moves().freed() == [(0, 2)].as_slice());
    expect(
        &rt,
        &mut core,
        asked(read),
        Outcome::Reply(Reply::Bytes(bytes)),
        &[],
    );
    Ok(())
}

#[test]
fn a_queue_is_parked_and_popped(rt: HostRuntime) -> Result<(), Fail> {
    let shape = Shape::store(1, 1, 1, 0, 64)?;
    let mut core = Core::new(rt.alloc(), shape, one_shelf(&rt, &[])?)?;
    let path = Path::parse(b"q").ok_or("a path")?;
    let make = Request::Make {
        path: path.copy(),
        kind: Kind::Queue,
        span: 9,
    };
    for (event, outcome) in [
        (CoreEvent::Draw, drawn(0)),
        (CoreEvent::Grant { user: 0 }, granted(0)),
        (asked(make), Outcome::Reply(Reply::Done)),
    ] {
        expect(&rt, &mut core, event, outcome, &[]);
    }
    let item = Blob::from_slice(rt.alloc(), b"hi")?;
    let push = Request::Push {
        path: path.copy(),
        item,
    };
    expect(
        &rt,
        &mut core,
        asked(push),
        Outcome::Reply(Reply::Done),
        &[row(&path, 0)],
    );
    let park = Request::Park { path: path.copy() };
    assert_eq!(rt; core.step(asked(park)), Outcome::Reply(Reply::Done));
    assert!(rt; core.moves().freed() == [(0, 2)].as_slice());
    let item = Blob::from_slice(rt.alloc(), b"hi")?;
    for reply in [Reply::Item(item), Reply::Nothing] {
        let pop = Request::Pop { path: path.copy() };
        expect(&rt, &mut core, asked(pop), Outcome::Reply(reply), &[]);
    }
    Ok(())
}
