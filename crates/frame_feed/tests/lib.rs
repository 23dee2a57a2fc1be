//! Frames for each cutting, each end, and what stands after a fault.

use crate::{Feed, FeedEnd, next_frame};
use far_io::{MemSource, Raw};
use std::test::Fail;

/// Three frames: of 1 byte, of none, of 3 bytes.
const INPUT: &[u8] = b"\0\0\0\x01a\0\0\0\0\0\0\0\x03bcd";

/// The frames of `bytes` that come in pieces of at most `piece` bytes, each in brackets, and the end.
fn frames_of(
    rt: &HostRuntime,
    bytes: &[u8],
    piece: usize,
) -> Result<(Vec<u8>, Option<FeedEnd>), Fail> {
    let alloc = rt.alloc();
    let raw = Raw::from(Vec::from_slice(alloc, bytes)?);
    let mut source = MemSource::new(raw, piece.max(1), Vec::new(alloc));
    let mut feed = Feed::new(alloc)?;
    let mut out = Vec::new(alloc);
    for _ in 0..20u8 {
        match next_frame(&mut source, &mut feed) {
            Ok(()) => {
                out.push(b'[')?;
                out.extend_from_slice(feed.frame())?;
                out.push(b']')?;
            }
            Err(end) => return Ok((out, Some(end))),
        }
    }
    Ok((out, None))
}

#[test]
fn frames_are_the_same_for_every_cutting(rt: HostRuntime) -> Result<(), Fail> {
    for piece in [1usize, 2, 3, 4, 5, 6, 7, 100] {
        let (out, end) = frames_of(&rt, INPUT, piece)?;
        assert_eq!(rt;
            out.as_slice(),
            b"[\0\0\0\x01a][\0\0\0\0][\0\0\0\x03bcd]".as_slice()
        );
        assert_eq!(rt; end, Some(FeedEnd::End));
    }
    Ok(())
}

#[test]
fn an_input_that_is_cut_at_each_byte(rt: HostRuntime) -> Result<(), Fail> {
    for len in 0..INPUT.len() {
        let (_, end) = frames_of(&rt, &INPUT[..len], 3)?;
        // the frames begin at 0, 5 and 9
        let wanted = match len {
            0 | 5 | 9 => FeedEnd::End,
            1..=4 => FeedEnd::Cut { have: len as u32 },
            6..=8 => FeedEnd::Cut {
                have: len as u32 - 5,
            },
            _ => FeedEnd::Cut {
                have: (len as u32).saturating_sub(9),
            },
        };
        assert_eq!(rt; end, Some(wanted));
    }
    Ok(())
}

#[test]
fn a_length_that_is_too_long(rt: HostRuntime) -> Result<(), Fail> {
    for piece in [1usize, 4, 100] {
        let (out, end) = frames_of(&rt, b"\0\x02\0\x01x", piece)?;
        assert_eq!(rt; out.len(), 0);
        assert_eq!(rt; end, Some(FeedEnd::TooLong { len: 131_073 }));
        let (_, end) = frames_of(&rt, b"\0\x02\0\0x", piece)?;
        assert_eq!(rt; end, Some(FeedEnd::Cut { have: 5 }));
    }
    Ok(())
}

#[test]
fn after_a_fault_it_goes_on(rt: HostRuntime) -> Result<(), Fail> {
    let alloc = rt.alloc();
    let raw = Raw::from(Vec::from_slice(alloc, INPUT)?);
    let mut fails = Vec::new(alloc);
    fails.push(1)?;
    let mut source = MemSource::new(raw, 3, fails);
    let mut feed = Feed::new(alloc)?;
    assert_eq!(rt; next_frame(&mut source, &mut feed), Err(FeedEnd::ReadFault));
    assert_eq!(rt; feed.frame().len(), 0);
    assert_eq!(rt; next_frame(&mut source, &mut feed), Ok(()));
    assert_eq!(rt; feed.frame(), b"\0\0\0\x01a".as_slice());
    assert!(rt; !feed.has_frame());
    assert_eq!(rt; next_frame(&mut source, &mut feed), Ok(()));
    Ok(())
}

#[test]
fn a_frame_that_came_with_another_is_ahead(rt: HostRuntime) -> Result<(), Fail> {
    let alloc = rt.alloc();
    let raw = Raw::from(Vec::from_slice(alloc, INPUT)?);
    let mut source = MemSource::new(raw, 100, Vec::new(alloc));
    let mut feed = Feed::new(alloc)?;
    assert!(rt; !feed.has_frame());
    assert_eq!(rt; next_frame(&mut source, &mut feed), Ok(()));
    assert!(rt; feed.has_frame());
    assert_eq!(rt; next_frame(&mut source, &mut feed), Ok(()));
    assert!(rt; feed.has_frame());
    assert_eq!(rt; next_frame(&mut source, &mut feed), Ok(()));
    assert!(rt; !feed.has_frame());
    Ok(())
}
