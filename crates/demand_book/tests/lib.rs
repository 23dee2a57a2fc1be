//! Quanta of a small book, users that join and leave, and the limits by their numbers.

use crate::{Book, BookAsk, BookTell, JoinEnd, LeaveEnd, QUANTA, Report, Rows};
use karma_rule::{MOST_DEMAND, Row, Shape, Share};
use std::test::Fail;
use turn_cell::Object;

/// The share of the shapes here.
const SHARE: Share = Share { fair: 2, floor: 1 };

/// The row of a user that is present with this share.
fn row_with(demand: u64, credits: u64, given: u64, share: Share) -> Row {
    Row {
        demand,
        credits,
        given,
        fair: share.fair,
        floor: share.floor,
        present: true,
    }
}

fn row(demand: u64, credits: u64, given: u64) -> Row {
    row_with(demand, credits, given, SHARE)
}

/// The row of a user that is away.
fn away(demand: u64) -> Row {
    Row {
        demand,
        credits: 0,
        given: 0,
        fair: 0,
        floor: 0,
        present: false,
    }
}

/// The next quantum after these demands, each with its user. It has no contract, so that a test's proof carries none of
/// the book's.
fn quantum_after(
    rt: &HostRuntime,
    book: &mut Book,
    demands: &[(u32, u64)],
) -> Result<Report, Fail> {
    for (user, demand) in demands {
        book.report(*user, *demand)?;
    }
    let mut report = Report::new(rt.alloc(), book.users())?;
    book.tick(&mut report)?;
    Ok(report)
}

#[test]
fn demands_stand_and_credits_go_on(rt: HostRuntime) -> Result<(), Fail> {
    let mut book = Book::new(rt.alloc(), Shape::plan(3, 2, 1, 5)?)?;
    let report = quantum_after(&rt, &mut book, &[(0, 3), (1, 2), (2, 1)])?;
    assert_eq!(rt; report.quantum, 0);
    assert_eq!(rt;
        report.rows.items(),
        [row(3, 4, 3), row(2, 5, 2), row(1, 6, 1)].as_slice()
    );

    // User 0's demand stands.
    let report = quantum_after(&rt, &mut book, &[(1, 0), (2, 0)])?;
    assert_eq!(rt; report.quantum, 1);
    assert_eq!(rt;
        report.rows.items(),
        [row(3, 3, 3), row(0, 7, 0), row(0, 8, 0)].as_slice()
    );
    assert_eq!(rt; book.share(1), Some(row(0, 7, 0)));
    Ok(())
}

#[test]
fn users_leave_and_join(rt: HostRuntime) -> Result<(), Fail> {
    let mut book = Book::new(rt.alloc(), Shape::plan(3, 2, 1, 5)?)?;
    let report = quantum_after(&rt, &mut book, &[(0, 3), (1, 2), (2, 1)])?;
    assert!(rt; !report.changed);

    assert_eq!(rt; book.leave(2), Ok(1));
    let report = quantum_after(&rt, &mut book, &[])?;
    assert!(rt; report.changed);
    assert_eq!(rt;
        report.rows.items(),
        [row(3, 4, 2), row(2, 5, 2), away(1)].as_slice()
    );

    // User 0 may have no more than the others leave of six slices.
    assert_eq!(rt; book.join(0, 3, 1), Ok(2));
    assert_eq!(rt; book.join(2, 2, 0), Err(JoinEnd::TooMuch { limit: 1 }));
    assert_eq!(rt; book.join(0, 2, 1), Ok(2));
    assert_eq!(rt; book.join(2, 2, 0), Ok(2));
    assert_eq!(rt; book.share(2), Some(away(1)));

    // User 2 comes with the average of 4 and 5.
    let report = quantum_after(&rt, &mut book, &[])?;
    assert!(rt; report.changed);
    let last = row_with(1, 5, 1, Share { fair: 2, floor: 0 });
    assert_eq!(rt;
        report.rows.items(),
        [row(3, 3, 3), row(2, 5, 2), last].as_slice()
    );
    assert_eq!(rt; book.join(3, 1, 0), Err(JoinEnd::AbsentUser { users: 3 }));
    assert_eq!(rt; book.leave(3), Err(LeaveEnd::AbsentUser { users: 3 }));
    Ok(())
}

#[test]
fn the_last_call_before_a_quantum_counts(rt: HostRuntime) -> Result<(), Fail> {
    let mut book = Book::new(rt.alloc(), Shape::plan(2, 2, 1, 5)?)?;
    book.leave(0)?;
    book.join(0, 2, 1)?;
    let report = quantum_after(&rt, &mut book, &[])?;
    assert!(rt; !report.changed);
    assert_eq!(rt;
        report.rows.items(),
        [row(0, 6, 0), row(0, 6, 0)].as_slice()
    );

    // Where nobody stays, who comes has the shape's credits.
    book.leave(0)?;
    book.leave(1)?;
    quantum_after(&rt, &mut book, &[])?;
    assert_eq!(rt; book.share(0), Some(away(0)));
    book.join(0, 4, 4)?;
    let report = quantum_after(&rt, &mut book, &[(0, 9), (1, 9)])?;
    let first = row_with(9, 5, 4, Share { fair: 4, floor: 4 });
    assert_eq!(rt; report.rows.items(), [first, away(9)].as_slice());
    Ok(())
}

#[test]
fn joins_and_leaves_as_an_object(rt: HostRuntime) -> Result<(), Fail> {
    let mut book = Book::new(rt.alloc(), Shape::plan(2, 2, 1, 5)?)?;
    for (fair, floor) in [(0, 0), (4_294_967_297, 0), (3, 4)] {
        let ask = BookAsk::Join {
            user: 0,
            fair,
            floor,
        };
        assert!(rt; !Book::fits(book.key(), &ask));
    }
    let leave = BookAsk::Leave { user: 1 };
    assert!(rt; Book::fits(book.key(), &leave) && !Book::is_move(&leave));
    if let BookTell::Leave(told) = book.apply(leave) {
        assert_eq!(rt; told, Ok(0));
    } else {
        panic!(rt; "a leave is answered")
    }
    let join = BookAsk::Join {
        user: 0,
        fair: 4_294_967_296,
        floor: 4,
    };
    if !Book::fits(book.key(), &join) {
        panic!(rt; "a share within its limits fits")
    }
    if let BookTell::Join(told) = book.apply(join) {
        assert_eq!(rt; told, Err(JoinEnd::TooMuch { limit: 4 }));
    } else {
        panic!(rt; "a join is answered")
    }
    Ok(())
}

#[test]
fn limits_by_their_numbers(rt: HostRuntime) {
    assert_eq!(rt; QUANTA, 268_435_456);
    assert_eq!(rt; MOST_DEMAND, 4_398_046_511_104);
}

#[test]
fn rows_from_a_vector(rt: HostRuntime) -> Result<(), Fail> {
    let mut rows = Rows::new(rt.alloc());
    rows.push(row(1, 2, 3))?;
    let mut vector: Vec<Row> = Vec::from(rows);
    vector.push(row(4, 5, 6))?;
    let rows = Rows::from(vector);
    assert_eq!(rt; rows.items(), [row(1, 2, 3), row(4, 5, 6)].as_slice());
    Ok(())
}

#[test]
fn ticks_tell_a_report(rt: HostRuntime) -> Result<(), Fail> {
    let mut book = Book::new(rt.alloc(), Shape::plan(2, 2, 1, 5)?)?;
    book.report(0, 3)?;
    let short = BookAsk::Tick {
        report: Report::new(rt.alloc(), 1)?,
    };
    assert!(rt; !Book::fits(book.key(), &short));
    let ask = BookAsk::Tick {
        report: Report::new(rt.alloc(), 2)?,
    };
    assert!(rt; !Book::is_move(&ask));
    if !Book::fits(book.key(), &ask) {
        panic!(rt; "a report of two rows fits")
    }
    let BookTell::Tick { report, spent } = book.apply(ask) else {
        panic!(rt; "a tick is answered")
    };
    assert!(rt; !spent);
    assert_eq!(rt;
        report.rows.items(),
        [row(3, 4, 3), row(0, 7, 0)].as_slice()
    );
    Ok(())
}
