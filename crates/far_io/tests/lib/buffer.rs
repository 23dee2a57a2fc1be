//! Texts through a write buffer in pieces of many sizes, and where a line is ahead.

use crate::{
    LineBuf, LineEnd, MemSink, MemSource, Raw, WriteBuf, WriteFault, WriteRoom, put_all, read_line,
};
use std::test::Fail;

// The helpers have no contract, so that a test's proof carries none of the buffers'.

fn long_text(rt: &HostRuntime) -> Result<Vec<u8>, Fail> {
    let mut text = Vec::new(rt.alloc());
    for i in 0..200_000u32 {
        text.push((i % 251) as u8)?;
    }
    Ok(text)
}

fn write_pieces(
    sink: &mut MemSink,
    room: &mut WriteRoom,
    text: &[u8],
    piece: usize,
) -> Result<(), WriteFault> {
    let mut out = WriteBuf::new(sink, room);
    for bytes in text.chunks(piece.max(1)) {
        put_all(&mut out, bytes)?;
    }
    out.pass_on()
}

// Writes a text of 200,000 bytes in pieces of so many, to a sink whose call `fault` fails. It says whether all was
// written, how many calls there were, and how many bytes the sink holds, which are a beginning of the text.
fn gather(rt: &HostRuntime, piece: usize, fault: u64) -> Result<(bool, u64, usize), Fail> {
    let text = long_text(rt)?;
    let mut sink = MemSink::new(rt.alloc(), Vec::from_slice(rt.alloc(), &[fault])?);
    let mut room = WriteRoom::new(rt.alloc())?;
    let is_done = write_pieces(&mut sink, &mut room, text.as_slice(), piece).is_ok();
    if !text.as_slice().starts_with(sink.bytes()) {
        return Err(Fail::from("other bytes"));
    }
    Ok((is_done, sink.calls(), sink.bytes().len()))
}

#[test]
fn pieces_of_every_size_make_calls_of_64_kib(rt: HostRuntime) -> Result<(), Fail> {
    for (piece, calls) in [
        (1usize, 4u64),
        (7, 4),
        (100, 4),
        (4096, 4),
        (40_000, 5),
        (65_535, 4),
        (65_536, 4),
        (65_537, 4),
        (200_000, 1),
    ] {
        assert_eq!(rt; gather(&rt, piece, u64::MAX)?, (true, calls, 200_000));
    }
    Ok(())
}

#[test]
fn each_fault_leaves_a_beginning(rt: HostRuntime) -> Result<(), Fail> {
    for (piece, fault, held) in [
        (100usize, 0u64, 0usize),
        (100, 1, 65_500),
        (100, 2, 131_000),
        (100, 3, 196_500),
        (65_535, 1, 65_535),
        (65_536, 0, 0),
        (65_536, 1, 65_536),
        (65_536, 2, 131_072),
        (65_536, 3, 196_608),
        (200_000, 0, 0),
    ] {
        assert_eq!(rt;
            gather(&rt, piece, fault)?,
            (false, fault.saturating_add(1), held)
        );
    }
    Ok(())
}

fn read_next(source: &mut MemSource, line: &mut LineBuf) -> u8 {
    match read_line(source, line) {
        Ok(()) => b'l',
        Err(LineEnd::ReadFault) => b'!',
        Err(LineEnd::TooLong { limit: _ }) => b'#',
        Err(LineEnd::End) => b'.',
    }
}

// What six reads of a source in pieces of so many bytes, whose call `fault` fails, answer: `l` for a line, `!` for a
// fault, `.` at the end, each with `+` before it where has_line held, else `-`.
fn marks(rt: &HostRuntime, piece: usize, fault: u64) -> Result<Vec<u8>, Fail> {
    let alloc = rt.alloc();
    let bytes = Raw::from(Vec::from_slice(alloc, b"ab\n\nc d\nlast")?);
    let mut source = MemSource::new(bytes, piece.max(1), Vec::from_slice(alloc, &[fault])?);
    let mut line = LineBuf::new(alloc, 10)?;
    let mut out = Vec::new(alloc);
    for _ in 0..6u8 {
        out.push(if line.has_line() { b'+' } else { b'-' })?;
        out.push(read_next(&mut source, &mut line))?;
    }
    Ok(out)
}

#[test]
fn a_line_is_ahead_where_it_was_taken(rt: HostRuntime) -> Result<(), Fail> {
    for (piece, fault, want) in [
        (1usize, u64::MAX, b"-l-l-l-l+.+.".as_slice()),
        (1, 3, b"-l-!-l-l-l+."),
        (100_000, u64::MAX, b"-l+l+l-l+.+."),
        (100_000, 1, b"-l+l+l-!-l+."),
    ] {
        let got = marks(&rt, piece, fault)?;
        assert_eq!(rt; got.as_slice(), want);
    }
    Ok(())
}
