//! A run of a small taker over memory: every cutting of the input, a fault at each call, and what goes out when.

ghost use Rattle.std.specs.Prelude.{◌≡◌};
ghost use Rattle.run_end.specs.LastLines.{last_line};
ghost use Rattle.run_end.specs.Why.{status_of};

use crate::{LineTaker, run_lines};
use far_io::{LineBuf, MemSink, MemSource, Raw, Sink, WriteFault, WriteRoom, put_all};
use run_end::{LineFault, MOST_LINE, Status, Why, put_last_line};
use std::test::Fail;

// Writes each line that it takes, without its end. It takes so many lines, none that is `x`, and wants memory at `m`.
#[derive(Drop)]
struct Echo {
    left: u64,
    taken: u64,
}

impl LineTaker for Echo {
    ghost rules = { record {
      takes = λ _ _ _. Unit {0};
      stops = λ _ _ _ _ _. Unit {0};
      over = λ _ _ _. Unit {0};
      quiet = ⊥;
    } };

    ghost holds = { λ _. Unit {0} };

    ghost lines_left = { λ echo. echo.left };

    ghost last_text = { λ _ _. last_line };

    fn take_line<O: Sink>(&mut self, line: &[u8], sink: &mut O) -> Result<Option<Why>, WriteFault> {
        if self.left == 0 {
            return Ok(Some(Why::Spent));
        }
        if line == b"x".as_slice() {
            return Ok(Some(self.bad_line(LineFault::UnknownWord)));
        }
        if line == b"m".as_slice() {
            return Ok(Some(Why::NoMemory));
        }
        self.left -= 1;
        self.taken = self.taken.saturating_add(1);
        put_all(sink, line)?;
        Ok(None)
    }

    fn at_long_line(&self) -> Why {
        self.bad_line(LineFault::TooLong {
            limit: MOST_LINE as u64,
        })
    }

    fn at_end(&self) -> Why {
        Why::Done
    }

    fn put_last<O: Sink>(&self, _line: &[u8], why: Why, sink: &mut O) -> Result<(), WriteFault> {
        put_last_line(sink, why)
    }
}

impl Echo {
    fn bad_line(&self, fault: LineFault) -> Why
        ensures { status_of result ≡ Status.BadLine }
    {
        Why::BadLine {
            number: self.taken.saturating_add(1),
            fault,
        }
    }
}

// One run over memory, of at most `left` lines: a call of the source gives at most `piece` bytes, and the calls with
// the numbers `read_fault` and `write_fault` fail. It answers the status, how many calls failed, and what was written.
fn run(
    rt: &HostRuntime,
    left: u64,
    input: &[u8],
    piece: usize,
    read_fault: u64,
    write_fault: u64,
) -> Result<(Status, u64, Vec<u8>), Fail> {
    let alloc = rt.alloc();
    let bytes = Raw::from_slice(alloc, input)?;
    let mut source = MemSource::new(bytes, piece.max(1), Vec::from_slice(alloc, &[read_fault])?);
    let mut sink = MemSink::new(alloc, Vec::from_slice(alloc, &[write_fault])?);
    let mut line = LineBuf::new(alloc, MOST_LINE)?;
    let mut room = WriteRoom::new(alloc)?;
    let mut echo = Echo { left, taken: 0 };
    let why = run_lines(&mut echo, &mut line, &mut room, &mut source, &mut sink);
    let faults = source.faults().saturating_add(sink.faults());
    Ok((why.status(), faults, Vec::from_slice(alloc, sink.bytes())?))
}

const NEVER: u64 = u64::MAX;

const PIECES: [usize; 5] = [1, 2, 3, 7, 100_000];

#[test]
fn the_same_for_every_cutting(rt: HostRuntime) -> Result<(), Fail> {
    let cases: [(&[u8], u64, Status, &[u8]); 6] = [
        (b"", 9, Status::Done, b""),
        (b"ab\n\ncd\n", 9, Status::Done, b"abcd"),
        (b"ab\ncd", 9, Status::Done, b"abcd"),
        (b"ab\nx\ncd\n", 9, Status::BadLine, b"abbad line 2\n"),
        (b"ab\ncd\nef\n", 2, Status::Spent, b"abcdspent\n"),
        (b"ab\nm\ncd\n", 9, Status::NoMemory, b"abnomemory\n"),
    ];
    for (input, left, status, want) in cases {
        for piece in PIECES {
            let (found, _, written) = run(&rt, left, input, piece, NEVER, NEVER)?;
            assert_eq!(rt; found, status);
            assert_eq!(rt; written.as_slice(), want);
        }
    }
    Ok(())
}

#[test]
fn a_line_above_the_limit(rt: HostRuntime) -> Result<(), Fail> {
    let mut input = Vec::from_slice(rt.alloc(), b"ab\n")?;
    for _ in 0..=MOST_LINE {
        input.push(b'y')?;
    }
    let (status, _, written) = run(&rt, 9, input.as_slice(), 100_000, NEVER, NEVER)?;
    assert_eq!(rt; status, Status::BadLine);
    assert_eq!(rt; written.as_slice(), b"abbad line 2\n".as_slice());
    Ok(())
}

// After a fault of the source, the sink took the texts of the lines whose line ends were read.
#[test]
fn each_read_that_fails(rt: HostRuntime) -> Result<(), Fail> {
    let input = b"ab\ncd\nef\n";
    for piece in PIECES {
        for call in 0..20u64 {
            let (status, faults, written) = run(&rt, 9, input, piece, call, NEVER)?;
            if faults == 0 {
                assert_eq!(rt; status, Status::Done);
                break;
            }
            let seen = (call as usize).saturating_mul(piece);
            let ended = input
                .iter()
                .take(seen)
                .filter(|byte| **byte == b'\n')
                .count();
            assert_eq!(rt; status, Status::ReadFault);
            assert_eq!(rt; written.len(), 2 * ended);
        }
    }
    Ok(())
}

// Where each read brings one line, each text goes out before the next read. Where the lines are ahead, all go out at
// once.
#[test]
fn what_goes_out_when(rt: HostRuntime) -> Result<(), Fail> {
    for call in 0..3u64 {
        let (status, _, written) = run(&rt, 9, b"ab\ncd\nef\n", 3, NEVER, call)?;
        assert_eq!(rt; status, Status::WriteFault);
        assert_eq!(rt; written.len() as u64, 2 * call);
    }
    let (status, _, written) = run(&rt, 9, b"ab\ncd\nef\n", 100, NEVER, 0)?;
    assert_eq!(rt; status, Status::WriteFault);
    assert_eq!(rt; written.as_slice(), b"".as_slice());
    let (status, faults, written) = run(&rt, 9, b"ab\ncd\nef\n", 100, NEVER, 1)?;
    assert_eq!(rt; (status, faults), (Status::Done, 0));
    assert_eq!(rt; written.as_slice(), b"abcdef".as_slice());
    Ok(())
}

// A last text that fails makes the status a write fault, but for want of memory.
#[test]
fn a_last_text_that_fails(rt: HostRuntime) -> Result<(), Fail> {
    let (status, _, written) = run(&rt, 9, b"ab\nx\n", 100, NEVER, 1)?;
    assert_eq!(rt; status, Status::WriteFault);
    assert_eq!(rt; written.as_slice(), b"ab".as_slice());
    let (status, _, written) = run(&rt, 9, b"ab\nm\n", 100, NEVER, 1)?;
    assert_eq!(rt; status, Status::NoMemory);
    assert_eq!(rt; written.as_slice(), b"ab".as_slice());
    Ok(())
}

// Of 200,000 bytes no more than 64 KiB wait at a time, and they go out in few calls.
#[test]
fn long_output_goes_out_in_few_calls(rt: HostRuntime) -> Result<(), Fail> {
    let mut input = Vec::new(rt.alloc());
    for _ in 0..2000u32 {
        for _ in 0..100u8 {
            input.push(b'y')?;
        }
        input.push(b'\n')?;
    }
    let (status, faults, written) = run(&rt, 9999, input.as_slice(), 1_000_000, NEVER, 8)?;
    assert_eq!(rt; (status, faults), (Status::Done, 0));
    assert_eq!(rt; written.len(), 200_000);
    Ok(())
}
