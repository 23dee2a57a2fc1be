//! The texts of last lines, and the words for a person.

use crate::{
    DueLine, LineFault, ShapeLimit, Status, Why, WordsFault, put_bad_line, put_bad_words,
    put_last_line, put_no_memory, put_spent,
};
use far_io::{MemSink, WriteFault};
use std::test::Fail;

#[test]
fn last_lines(rt: HostRuntime) -> Result<(), Fail> {
    let mut sink = MemSink::new(rt.alloc(), Vec::new(rt.alloc()));
    assert_eq!(rt; put_bad_line(&mut sink, 12), Ok(()));
    assert_eq!(rt; put_spent(&mut sink), Ok(()));
    assert_eq!(rt; put_bad_words(&mut sink), Ok(()));
    assert_eq!(rt; put_no_memory(&mut sink), Ok(()));
    assert_eq!(rt; put_last_line(&mut sink, Why::Done), Ok(()));
    assert_eq!(rt; put_last_line(&mut sink, Why::Spent), Ok(()));
    assert_eq!(rt;
        sink.bytes(),
        b"bad line 12\nspent\nbad words\nnomemory\nspent\n".as_slice()
    );
    Ok(())
}

#[test]
fn last_lines_at_a_fault(rt: HostRuntime) -> Result<(), Fail> {
    let mut sink = MemSink::new(rt.alloc(), Vec::from_slice(rt.alloc(), &[0u64])?);
    assert_eq!(rt; put_last_line(&mut sink, Why::NoMemory), Err(WriteFault));
    assert_eq!(rt; sink.bytes(), b"".as_slice());
    Ok(())
}

#[test]
fn whys_in_words(rt: HostRuntime) -> Result<(), Fail> {
    let cases = [
        (Why::Done, 0, "the input was read to its end"),
        (
            Why::BadWords {
                fault: WordsFault::Limit {
                    limit: ShapeLimit::Floor,
                },
            },
            2,
            "bad words: FLOOR has to be at most FAIR",
        ),
        (
            Why::BadWords {
                fault: WordsFault::WordCount {
                    wanted: 5,
                    found: 4,
                },
            },
            2,
            "bad words: words wanted: 5, found: 4",
        ),
        (
            Why::BadWords {
                fault: WordsFault::NotUtf8 { word: 2 },
            },
            2,
            "bad words: word 2 is not UTF-8",
        ),
        (
            Why::BadLine {
                number: 3,
                fault: LineFault::AboveLimit { word: 2, limit: 9 },
            },
            3,
            "line 3 is bad: word 2 is above 9",
        ),
        (
            Why::BadLine {
                number: 2,
                fault: LineFault::Missing {
                    due: DueLine::Slices,
                },
            },
            3,
            "line 2 is bad: the input ends, and a line `slices` is missing",
        ),
        (
            Why::BadLine {
                number: 2,
                fault: LineFault::NoShares,
            },
            3,
            "line 2 is bad: this line `shares` tells no roster that may stand here",
        ),
        (Why::ReadFault, 4, "reading failed"),
        (Why::WriteFault, 5, "writing failed"),
        (Why::NoMemory, 6, "no memory was left"),
        (
            Why::Spent,
            7,
            "a line stands after the last one that is taken",
        ),
        (
            Why::NotKarma { number: 8 },
            9,
            "line 8 is not what the rule gives",
        ),
    ];
    for (why, code, words) in cases {
        assert_eq!(rt; why.status().code(), code);
        assert_eq!(rt; format!(in rt.alloc(); "{why}")?.as_str(), words);
    }
    assert!(rt; Status::Done != Status::Spent);
    Ok(())
}
