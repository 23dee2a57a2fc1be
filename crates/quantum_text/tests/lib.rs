//! Blocks both ways, with and without a roster, and their bad lines by their numbers.

use crate::{ReportTextEnd, read_report, write_report};
use demand_book::{Report, Rows};
use far_io::{LineBuf, MemSink, MemSource, Raw, WriteFault};
use karma_rule::{Row, Shape, Share};
use std::test::Fail;

const FIRST_QUANTUM: &[u8] = b"quantum 0\ndemand 3 2 1\nslices 3 2 1\ncredits 4 5 6\n";

const USER_LEFT: &[u8] =
    b"quantum 1\nshares 2:1 2:1 -\ndemand 3 2 1\nslices 2 2 0\ncredits 4 5 0\n";

const USER_IS_BACK: &[u8] =
    b"quantum 2\nshares 2:1 2:1 2:0\ndemand 3 2 1\nslices 3 2 1\ncredits 3 5 5\n";

/// The share that each user has at first.
const SHARE: Share = Share { fair: 2, floor: 1 };

fn row(demand: u64, credits: u64, given: u64, seat: Option<Share>) -> Row {
    let share = seat.unwrap_or(Share { fair: 0, floor: 0 });
    Row {
        demand,
        credits,
        given,
        fair: share.fair,
        floor: share.floor,
        present: seat.is_some(),
    }
}

fn source(rt: &HostRuntime, text: &[u8], fails: &[u64]) -> Result<MemSource, Fail> {
    let bytes = Vec::from_slice(rt.alloc(), text)?;
    let fails = Vec::from_slice(rt.alloc(), fails)?;
    Ok(MemSource::new(Raw::from(bytes), 1, fails))
}

// The next two have no contract, so that a test's proof carries none of the reader's and the writer's.

fn read_next(
    source: &mut MemSource,
    line: &mut LineBuf,
    report: &mut Report,
) -> Result<(), ReportTextEnd> {
    let shape = Shape {
        users: 3,
        share: SHARE,
        credits: 5,
        slice: 0,
    };
    read_report(shape, source, line, report)
}

fn write_next(report: &Report, sink: &mut MemSink) -> Result<(), WriteFault> {
    write_report(report, sink)
}

/// A report of three users, each with its demand, credits and slices, and the last user's seat. The others have the
/// first share.
fn report(
    rt: &HostRuntime,
    quantum: u32,
    users: [(u64, u64, u64); 3],
    last: Option<Share>,
    changed: bool,
) -> Result<Report, Fail> {
    let [first, second, third] = users;
    let mut rows = Rows::new(rt.alloc());
    rows.push(row(first.0, first.1, first.2, Some(SHARE)))?;
    rows.push(row(second.0, second.1, second.2, Some(SHARE)))?;
    rows.push(row(third.0, third.1, third.2, last))?;
    Ok(Report {
        quantum,
        rows,
        changed,
    })
}

fn opening_report(rt: &HostRuntime) -> Result<Report, Fail> {
    report(rt, 0, [(0, 0, 0); 3], Some(SHARE), false)
}

fn first_report(rt: &HostRuntime) -> Result<Report, Fail> {
    report(rt, 0, [(3, 4, 3), (2, 5, 2), (1, 6, 1)], Some(SHARE), false)
}

fn report_without_user(rt: &HostRuntime) -> Result<Report, Fail> {
    report(rt, 1, [(3, 4, 2), (2, 5, 2), (1, 0, 0)], None, true)
}

fn report_with_user(rt: &HostRuntime) -> Result<Report, Fail> {
    let share = Share { fair: 2, floor: 0 };
    report(rt, 2, [(3, 3, 3), (2, 5, 2), (1, 5, 1)], Some(share), true)
}

#[test]
fn first_quantum_is_written(rt: HostRuntime) -> Result<(), Fail> {
    let report = first_report(&rt)?;
    let mut sink = MemSink::new(rt.alloc(), Vec::from_slice(rt.alloc(), &[1u64])?);
    assert_eq!(rt; write_next(&report, &mut sink), Ok(()));
    assert_eq!(rt; sink.bytes(), FIRST_QUANTUM);
    assert_eq!(rt; write_next(&report, &mut sink), Err(WriteFault));
    Ok(())
}

#[test]
fn rosters_are_written(rt: HostRuntime) -> Result<(), Fail> {
    let mut sink = MemSink::new(rt.alloc(), Vec::new(rt.alloc()));
    assert_eq!(rt; write_next(&report_without_user(&rt)?, &mut sink), Ok(()));
    assert_eq!(rt; sink.bytes(), USER_LEFT);
    let mut sink = MemSink::new(rt.alloc(), Vec::new(rt.alloc()));
    assert_eq!(rt; write_next(&report_with_user(&rt)?, &mut sink), Ok(()));
    assert_eq!(rt; sink.bytes(), USER_IS_BACK);
    Ok(())
}

#[test]
fn first_quantum_is_read(rt: HostRuntime) -> Result<(), Fail> {
    let report = first_report(&rt)?;
    let mut source = source(&rt, FIRST_QUANTUM, &[3])?;
    let mut line = LineBuf::new(rt.alloc(), 100)?;
    let mut read = opening_report(&rt)?;
    let fault = read_next(&mut source, &mut line, &mut read);
    assert_eq!(rt; fault, Err(ReportTextEnd::ReadFault));
    let done = read_next(&mut source, &mut line, &mut read);
    assert_eq!(rt; (done, line.number(), read.quantum), (Ok(()), 4, 0));
    assert_eq!(rt; read.rows.items(), report.rows.items());
    let end = read_next(&mut source, &mut line, &mut read);
    assert_eq!(rt; end, Err(ReportTextEnd::End));
    Ok(())
}

/// How many lines of `text` are read as one block, 0 where it is none.
fn lines_read(rt: &HostRuntime, text: &[u8], read: &mut Report) -> Result<u64, Fail> {
    let mut source = source(rt, text, &[])?;
    let mut line = LineBuf::new(rt.alloc(), 72)?;
    match read_next(&mut source, &mut line, read) {
        Ok(()) => Ok(line.number()),
        Err(_) => Ok(0),
    }
}

#[test]
fn rosters_are_read(rt: HostRuntime) -> Result<(), Fail> {
    let mut read = opening_report(&rt)?;
    let lines = lines_read(&rt, USER_LEFT, &mut read)?;
    assert_eq!(rt; (lines, read.changed), (5, true));
    let wanted = report_without_user(&rt)?;
    assert_eq!(rt; read.rows.items(), wanted.rows.items());
    let lines = lines_read(&rt, USER_IS_BACK, &mut read)?;
    assert_eq!(rt; (lines, read.changed), (5, true));
    let wanted = report_with_user(&rt)?;
    assert_eq!(rt; read.rows.items(), wanted.rows.items());
    Ok(())
}

#[test]
fn a_roster_stays_without_a_line(rt: HostRuntime) -> Result<(), Fail> {
    let mut read = report_without_user(&rt)?;
    let lines = lines_read(&rt, FIRST_QUANTUM, &mut read)?;
    assert_eq!(rt; (lines, read.changed), (4, false));
    let wanted = report(&rt, 0, [(3, 4, 3), (2, 5, 2), (1, 6, 1)], None, false)?;
    assert_eq!(rt; read.rows.items(), wanted.rows.items());
    Ok(())
}

/// The number of the line of `text` that is bad for three users, 0 where none is.
fn bad_line(rt: &HostRuntime, text: &[u8]) -> Result<u64, Fail> {
    let mut source = source(rt, text, &[])?;
    let mut line = LineBuf::new(rt.alloc(), 72)?;
    let mut read = opening_report(rt)?;
    match read_next(&mut source, &mut line, &mut read) {
        Err(ReportTextEnd::BadLine { line }) => Ok(line),
        _ => Ok(0),
    }
}

/// Texts, each with the number of its bad line.
fn bad_texts() -> [(&'static [u8], u64); 15] {
    [
        (b"\n", 1),
        (b"quantum\n", 1),
        (b"quantum 4294967296\n", 1),
        (b"quantum 0 1\n", 1),
        (b"quantum  0\n", 1),
        (b"quantum 00\n", 1),
        (b"Quantum 0\n", 1),
        (b"demand 3 2 1\n", 1),
        (b"quantum 0\n", 2),
        (b"quantum 0\ndemand 3 2\n", 2),
        (b"quantum 0\ndemand 3 2 1 0\n", 2),
        (b"quantum 0\ndemand 3 2 1 \n", 2),
        (b"quantum 0\ndemand 4398046511105 2 1\n", 2),
        (
            b"quantum 0\ndemand 4398046511104 2 1\nslices 3 2 1 and on\n",
            3,
        ),
        (
            b"quantum 0\ndemand 3 2 1\nslices 3 2 1\ncredits 4 5 18446744073709551616",
            4,
        ),
    ]
}

/// Texts with a bad line of a roster, each with its number. Each user has the share 2:1 before.
fn bad_rosters() -> [(&'static [u8], u64); 20] {
    [
        (b"shares 2:1 2:1 -\n", 1),
        (b"quantum 0\nshares\n", 2),
        (b"quantum 0\nshares 2:1 2:1\n", 2),
        (b"quantum 0\nshares 2:1 2:1 - -\n", 2),
        (b"quantum 0\nshares 2:1 2:1 - \n", 2),
        (b"quantum 0\nshares 2:1 2:1 2\n", 2),
        (b"quantum 0\nshares 2:1 2:1 2:\n", 2),
        (b"quantum 0\nshares 2:1 2:1 :1\n", 2),
        (b"quantum 0\nshares 2:1 2:1 2:0:1\n", 2),
        (b"quantum 0\nshares 2:1 2:1 02:0\n", 2),
        (b"quantum 0\nshares 2:1 2:1 --\n", 2),
        (b"quantum 0\nshares 2:1 2:1 0:0\n", 2),
        (b"quantum 0\nshares 2:1 2:1 1:2\n", 2),
        (b"quantum 0\nshares - - 4294967297:0\n", 2),
        (b"quantum 0\nshares 2:1 2:1 3:1\n", 2),
        (b"quantum 0\nshares 2:1 2:1 2:1\n", 2),
        (b"quantum 0\nshares 2:1 2:1 -", 3),
        (b"quantum 0\nshares 2:1 2:1 -\nshares 2:1 2:1 2:1\n", 3),
        (b"quantum 0\nshares 2:1 2:1 -\nslices 2 2 0\n", 3),
        (b"quantum 0\ndemand 3 2 1\nshares 2:1 2:1 -\n", 3),
    ]
}

#[test]
fn bad_lines_by_number(rt: HostRuntime) -> Result<(), Fail> {
    for (text, number) in bad_texts() {
        assert_eq!(rt; bad_line(&rt, text)?, number);
    }
    for (text, number) in bad_rosters() {
        assert_eq!(rt; bad_line(&rt, text)?, number);
    }
    Ok(())
}

#[test]
fn lines_before_a_bad_one_are_read(rt: HostRuntime) -> Result<(), Fail> {
    let text = b"quantum 7\ndemand 3 2 1\nslices 3 2 1 0\ncredits 4 5 6\n";
    let mut source = source(&rt, text, &[])?;
    let mut line = LineBuf::new(rt.alloc(), 12)?;
    let mut read = opening_report(&rt)?;
    assert_eq!(rt;
        read_next(&mut source, &mut line, &mut read),
        Err(ReportTextEnd::BadLine { line: 3 })
    );
    assert_eq!(rt; read.quantum, 7);
    let wanted = report(
        &rt,
        7,
        [(3, 0, 0), (2, 0, 0), (1, 0, 0)],
        Some(SHARE),
        false,
    )?;
    assert_eq!(rt; read.rows.items(), wanted.rows.items());
    Ok(())
}

#[test]
fn a_roster_before_a_bad_line_is_read(rt: HostRuntime) -> Result<(), Fail> {
    let text = b"quantum 1\nshares 2:1 2:1 -\ndemand 3 2\nquantum\n";
    let mut source = source(&rt, text, &[])?;
    let mut line = LineBuf::new(rt.alloc(), 72)?;
    let mut read = opening_report(&rt)?;
    let bad = read_next(&mut source, &mut line, &mut read);
    assert_eq!(rt;
        (bad, read.changed),
        (Err(ReportTextEnd::BadLine { line: 3 }), true)
    );
    let wanted = report(&rt, 1, [(0, 0, 0); 3], None, true)?;
    assert_eq!(rt; read.rows.items(), wanted.rows.items());
    let bad = read_next(&mut source, &mut line, &mut read);
    assert_eq!(rt;
        (bad, read.changed),
        (Err(ReportTextEnd::BadLine { line: 4 }), false)
    );
    Ok(())
}
