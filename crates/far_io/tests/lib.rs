//! Lines, decimals, escapes and words by tables, and what sources and sinks do at faults.

use crate::{
    Failed, LineBuf, LineEnd, MemSink, MemSource, Raw, ReadSource, Sink, Source, SureSink,
    SureSource, WriteFault, WriteSink, parse_decimal, parse_escaped, put_all, put_decimal,
    put_escaped, read_line, split_word,
};
use std::io::{self, ErrorKind, Read, Write};
use std::test::Fail;

mod buffer;

// What came of reading `text` in pieces of at most `piece` bytes, where call `fault` fails: each line in brackets, `!`
// for a fault, `#` for a line that is too long, `.` at the end.
fn transcript(
    rt: &HostRuntime,
    text: &[u8],
    piece: usize,
    fault: u64,
    limit: usize,
) -> Result<Vec<u8>, Fail> {
    let alloc = rt.alloc();
    let bytes = Raw::from(Vec::from_slice(alloc, text)?);
    let fails = Vec::from_slice(alloc, &[fault])?;
    let mut source = MemSource::new(bytes, piece.max(1), fails);
    let mut line = LineBuf::new(alloc, limit)?;
    let mut out = Vec::new(alloc);
    for _ in 0..20u8 {
        match read_line(&mut source, &mut line) {
            Ok(()) => {
                out.push(b'[')?;
                out.extend_from_slice(line.bytes())?;
                out.push(b']')?;
            }
            Err(LineEnd::ReadFault) => out.push(b'!')?,
            Err(LineEnd::TooLong { limit: _ }) => {
                out.push(b'#')?;
                break;
            }
            Err(LineEnd::End) => {
                out.push(b'.')?;
                break;
            }
        }
    }
    Ok(out)
}

#[test]
fn lines_are_the_same_for_every_cutting(rt: HostRuntime) -> Result<(), Fail> {
    let none = u64::MAX;
    for piece in [1usize, 2, 3, 7, 100] {
        let some = transcript(&rt, b"ab\n\nc d\nlast", piece, none, 10)?;
        assert_eq!(rt; some.as_slice(), b"[ab][][c d][last].".as_slice());
        let ended = transcript(&rt, b"ab\n", piece, none, 2)?;
        assert_eq!(rt; ended.as_slice(), b"[ab].".as_slice());
        let empty = transcript(&rt, b"", piece, none, 0)?;
        assert_eq!(rt; empty.as_slice(), b".".as_slice());
        let long = transcript(&rt, b"abc\nabcd\nx\n", piece, none, 3)?;
        assert_eq!(rt; long.as_slice(), b"[abc]#".as_slice());
    }
    Ok(())
}

#[test]
fn a_fault_loses_no_line(rt: HostRuntime) -> Result<(), Fail> {
    for (fault, want) in [
        (0u64, b"![ab][c].".as_slice()),
        (1, b"![ab][c].".as_slice()),
        (3, b"[ab]![c].".as_slice()),
        (4, b"[ab]![c].".as_slice()),
        (5, b"[ab][c].".as_slice()),
    ] {
        let got = transcript(&rt, b"ab\nc", 1, fault, 10)?;
        assert_eq!(rt; got.as_slice(), want, "call {fault}");
    }
    Ok(())
}

#[test]
fn decimals_good_and_bad(rt: HostRuntime) -> Result<(), Fail> {
    for (text, want) in [
        (b"".as_slice(), None),
        (b"0", Some(0)),
        (b"00", None),
        (b"01", None),
        (b"9", Some(9)),
        (b"10", Some(10)),
        (b"4398046511104", Some(4_398_046_511_104)),
        (b"+1", None),
        (b"-1", None),
        (b" 1", None),
        (b"1 ", None),
        (b"1a", None),
        (b"x", None),
        (b"1/", None),
        (b"1:", None),
        (b"9999999999999999999", Some(9_999_999_999_999_999_999)),
        (b"18446744073709551615", Some(u64::MAX)),
        (b"18446744073709551616", None),
        (b"18446744073709551620", None),
        (b"99999999999999999999", None),
        (b"100000000000000000000", None),
    ] {
        assert_eq!(rt; parse_decimal(text), want);
    }
    Ok(())
}

#[test]
fn escapes_both_ways(rt: HostRuntime) -> Result<(), Fail> {
    let table: [(&[u8], &[u8]); 6] = [
        (b"", b"%"),
        (b"%", b"%25"),
        (b"a b\n", b"a%20b%0A"),
        (b"!~", b"!~"),
        (b"\x00\x7F\xFF", b"%00%7F%FF"),
        (b"%41", b"%2541"),
    ];
    for (bytes, text) in table {
        let mut sink = MemSink::new(rt.alloc(), Vec::new(rt.alloc()));
        assert_eq!(rt; put_escaped(&mut sink, bytes), Ok(()));
        assert_eq!(rt; sink.bytes(), text);
        let read = parse_escaped(rt.alloc(), text)?.ok_or("no bytes")?;
        assert_eq!(rt; read.items(), bytes);
    }
    Ok(())
}

#[test]
fn texts_that_no_bytes_have(rt: HostRuntime) -> Result<(), Fail> {
    let table: [&[u8]; 10] = [
        b"", b"%%", b"%2", b"a%", b"%0a", b"%41", b"%7E", b"a b", b"\x7F", b"%G0",
    ];
    for text in table {
        assert!(rt; parse_escaped(rt.alloc(), text)?.is_none());
    }
    Ok(())
}

#[test]
fn words_are_parted_by_one_space(rt: HostRuntime) {
    assert_eq!(rt;
        split_word(b"12 3 4"),
        (b"12".as_slice(), Some(b"3 4".as_slice()))
    );
    assert_eq!(rt; split_word(b"4"), (b"4".as_slice(), None));
    assert_eq!(rt; split_word(b" 4"), (b"".as_slice(), Some(b"4".as_slice())));
    assert_eq!(rt; split_word(b""), (b"".as_slice(), None));
}

#[test]
fn sinks_keep_what_they_took(rt: HostRuntime) -> Result<(), Fail> {
    let alloc = rt.alloc();
    let mut kept = MemSink::new(alloc, Vec::from_slice(alloc, &[1u64])?);
    assert_eq!(rt; put_all(&mut kept, b"ab"), Ok(()));
    assert_eq!(rt; put_decimal(&mut kept, 7), Err(WriteFault));
    assert_eq!(rt; put_decimal(&mut kept, u64::MAX), Ok(()));
    assert_eq!(rt; kept.bytes(), b"ab18446744073709551615".as_slice());
    assert_eq!(rt; kept.faults(), 1);

    let mut sure = SureSink::new(alloc, 5)?;
    assert_eq!(rt; put_all(&mut sure, b"abc"), Ok(()));
    assert_eq!(rt; put_all(&mut sure, b"def"), Err(WriteFault));
    assert_eq!(rt; put_decimal(&mut sure, 10), Ok(()));
    assert_eq!(rt; sure.bytes(), b"abc10".as_slice());
    assert_eq!(rt; sure.faults(), 1);
    Ok(())
}

#[test]
fn a_sure_source_gives_all(rt: HostRuntime) -> Result<(), Fail> {
    let alloc = rt.alloc();
    let mut raw = Raw::new(alloc);
    raw.push(b'a')?;
    raw.extend_from_slice(b"bc")?;
    let mut source = SureSource::new(raw, 2);
    let mut out = [0u8; 4];
    assert_eq!(rt; source.take(&mut out), Ok(2));
    assert_eq!(rt; source.take(&mut out), Ok(1));
    assert_eq!(rt; source.take(&mut out), Ok(0));
    assert_eq!(rt; out[0], b'c');
    Ok(())
}

// A reader and writer that is interrupted so many times before each call that works.
#[derive(Drop)]
struct Stutter {
    times: u8,
    left: u8,
}

impl Stutter {
    fn is_interrupted(&mut self) -> bool {
        if self.left == 0 {
            self.left = self.times;
            return false;
        }
        self.left -= 1;
        true
    }
}

impl Read for Stutter {
    fn read(&mut self, buf: &mut [u8]) -> io::Result<usize> {
        if self.is_interrupted() {
            return Err(io::Error::from(ErrorKind::Interrupted));
        }
        for byte in buf.iter_mut() {
            *byte = b'r';
        }
        Ok(buf.len())
    }
}

impl Write for Stutter {
    fn write(&mut self, buf: &[u8]) -> io::Result<usize> {
        if self.is_interrupted() {
            return Err(io::Error::from(ErrorKind::Interrupted));
        }
        Ok(buf.len() / 2)
    }

    fn flush(&mut self) -> io::Result<()> {
        Ok(())
    }
}

#[test]
fn an_interrupted_read_is_tried_64_times_more(rt: HostRuntime) {
    let mut out = [0u8; 3];
    let mut patient = ReadSource::new(Stutter {
        times: 64,
        left: 64,
    });
    assert_eq!(rt; patient.take(&mut out), Ok(3));
    assert_eq!(rt; out[2], b'r');
    let mut stuck = ReadSource::new(Stutter {
        times: 65,
        left: 65,
    });
    assert_eq!(rt; stuck.take(&mut out), Err(Failed));
    assert_eq!(rt; stuck.take(&mut out), Ok(3));
}

#[test]
fn an_interrupted_write_is_tried_64_times_more(rt: HostRuntime) {
    let mut patient = WriteSink::new(Stutter {
        times: 64,
        left: 64,
    });
    assert_eq!(rt; patient.give(b"abcd"), Ok(2));
    assert_eq!(rt; patient.give(b"a"), Err(Failed));
    let mut stuck = WriteSink::new(Stutter {
        times: 65,
        left: 65,
    });
    assert_eq!(rt; stuck.give(b"abcd"), Err(Failed));
    assert_eq!(rt; stuck.give(b"abcd"), Ok(2));
}
