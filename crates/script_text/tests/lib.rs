//! Lines of a script, and the lines that are written of outcomes and moves.
ghost use Rattle.std.specs.Prelude.{◌≡◌, IfOk};

use crate::{ScriptLine, parse_line, write_moves, write_outcome};
use far_io::{MemSink, WriteFault};
use far_asks::{Kind, Outcome, Reply, Request};
use far_words::{Found, ImageFault, Moves, Path, PlacedRow, Stamp};
use std::test::Fail;

fn path(text: &[u8]) -> Result<Path, Fail> {
    Ok(Path::parse(text).ok_or("no path")?)
}

fn line(rt: &HostRuntime, text: &[u8]) -> Result<ScriptLine, Fail> {
    Ok(parse_line(rt.alloc(), text)?.ok_or("no line")?)
}

#[test]
fn lines_within_the_grammar(rt: HostRuntime) -> Result<(), Fail> {
    assert_eq!(rt; line(&rt, b"draw")?, ScriptLine::Draw);
    assert_eq!(rt;
        line(&rt, b"grant 4294967295")?,
        ScriptLine::Grant { user: u32::MAX }
    );
    let request = Request::Make {
        path: path(b"f")?,
        kind: Kind::File,
        span: 100,
    };
    assert_eq!(rt;
        line(&rt, b"make 0 f file 100")?,
        ScriptLine::Ask { user: 0, request }
    );
    let request = Request::Read {
        path: path(b"job/in")?,
        from: u64::MAX,
        len: u32::MAX,
    };
    assert_eq!(rt;
        line(&rt, b"read 7 job/in 18446744073709551615 4294967295")?,
        ScriptLine::Ask { user: 7, request }
    );
    let request = Request::Length { path: path(b"f")? };
    assert_eq!(rt;
        line(&rt, b"length 0 f")?,
        ScriptLine::Ask { user: 0, request }
    );
    let request = Request::Make {
        path: path(b"q")?,
        kind: Kind::Queue,
        span: 0,
    };
    assert_eq!(rt;
        line(&rt, b"make 0 q queue 0")?,
        ScriptLine::Ask { user: 0, request }
    );
    Ok(())
}

#[test]
fn lines_of_a_name_alone(rt: HostRuntime) -> Result<(), Fail> {
    let request = Request::Pop { path: path(b"q")? };
    assert_eq!(rt;
        line(&rt, b"pop 0 q")?,
        ScriptLine::Ask { user: 0, request }
    );
    let request = Request::Front {
        path: path(b"job/q")?,
    };
    assert_eq!(rt;
        line(&rt, b"front 4294967295 job/q")?,
        ScriptLine::Ask {
            user: u32::MAX,
            request
        }
    );
    let request = Request::Count { path: path(b"q")? };
    assert_eq!(rt;
        line(&rt, b"count 1 q")?,
        ScriptLine::Ask { user: 1, request }
    );
    let request = Request::Park { path: path(b"f")? };
    assert_eq!(rt;
        line(&rt, b"park 0 f")?,
        ScriptLine::Ask { user: 0, request }
    );
    let request = Request::Load {
        path: path(b"job/in")?,
    };
    assert_eq!(rt;
        line(&rt, b"load 3 job/in")?,
        ScriptLine::Ask { user: 3, request }
    );
    Ok(())
}

// Further ones are rows of `rows/`, with what is said of each.
#[test]
fn lines_outside_the_grammar(rt: HostRuntime) -> Result<(), Fail> {
    let table: [&[u8]; 38] = [
        b" ",
        b" draw",
        b"draw 0",
        b"grant  0",
        b"grant 0 ",
        b"make 0 f file",
        b"make 0 f dir 1",
        b"make 0 f table 1",
        b"make 0 q Queue 1",
        b"make 0 f File 1",
        b"make 0 f file 1 2",
        b"make 0 f file 01",
        b"make 0 /f file 1",
        b"append 0 f",
        b"append 0 f %0a",
        b"append 0 f %41",
        b"append 0 f %%",
        b"append 0 f a%2",
        b"append 0  f a",
        b"append 4294967296 f a",
        b"read 0 f 0",
        b"read 0 f 0 01",
        b"read 0 f 0 1 2",
        b"length 0",
        b"length 0 f ",
        b"length 0 f\n",
        b"push 0 q a b",
        b"push 0 q %0a",
        b"pop 0",
        b"pop 0 q 1",
        b"front 0 q ",
        b"count q",
        b"park 0 f 1",
        b"park f",
        b"load 0 f ",
        b"Load 0 f",
        b"now 5",
        b"quantum",
    ];
    for text in table {
        assert_eq!(rt; parse_line(rt.alloc(), text)?, None);
    }
    Ok(())
}

fn written(rt: &HostRuntime, outcome: Outcome) -> Result<MemSink, Fail> {
    let mut sink = MemSink::new(rt.alloc(), Vec::new(rt.alloc()));
    write_outcome(&outcome, &mut sink)?;
    Ok(sink)
}

#[test]
fn a_store_fault_is_a_line(rt: HostRuntime) -> Result<(), Fail> {
    let sink = written(&rt, Outcome::Reply(Reply::StoreFault))?;
    assert_eq!(rt; sink.bytes(), b"storefault\n".as_slice());
    Ok(())
}

/// The SHA-256 of `a`.
const DIGEST: [u8; 32] = [
    0xca, 0x97, 0x81, 0x12, 0xca, 0x1b, 0xbd, 0xca, 0xfa, 0xc2, 0x31, 0xb3, 0x9a, 0x23, 0xdc, 0x4d,
    0xa7, 0x86, 0xef, 0xf8, 0x14, 0x7c, 0x4e, 0x72, 0xb9, 0x80, 0x77, 0x85, 0xaf, 0xee, 0x48, 0xbb,
];

/// The SHA-256 of `b`.
const OTHER: [u8; 32] = [
    0x3e, 0x23, 0xe8, 0x16, 0x00, 0x39, 0x59, 0x4a, 0x33, 0x89, 0x4f, 0x65, 0x64, 0xe1, 0xb1, 0x34,
    0x8b, 0xbd, 0x7a, 0x00, 0x88, 0xd4, 0x2c, 0x4a, 0xcb, 0x73, 0xee, 0xae, 0xd5, 0x9c, 0x00, 0x9d,
];

fn broken(fault: ImageFault) -> Found {
    Found::Broken { fault }
}

#[test]
fn damaged_blocks(rt: HostRuntime) -> Result<(), Fail> {
    let kept = Stamp {
        user: 0,
        block: 0,
        length: 1,
        digest: DIGEST,
    };
    let stamp = Stamp {
        user: u32::MAX,
        block: u64::MAX,
        length: 65536,
        digest: OTHER,
    };
    let cases: [(Found, &str); 9] = [
        (Found::Absent, "absent"),
        (broken(ImageFault::Short { have: 52 }), "broken:short:52"),
        (broken(ImageFault::Magic), "broken:magic"),
        (broken(ImageFault::Version { found: 2 }), "broken:version:2"),
        (
            broken(ImageFault::Length { said: 1, have: 0 }),
            "broken:length:1:0",
        ),
        (
            broken(ImageFault::Digest {
                kept: DIGEST,
                found: OTHER,
            }),
            "broken:digest:ca978112ca1bbdcafac231b39a23dc4da786eff8147c4e72b9807785afee48bb:3e23e8160039594a33894f6564e1b1348bbd7a0088d42c4acb73eeaed59c009d",
        ),
        (Found::Longer { len: 118 }, "longer:118"),
        (
            Found::Other { stamp },
            "other:4294967295:18446744073709551615:65536:3e23e8160039594a33894f6564e1b1348bbd7a0088d42c4acb73eeaed59c009d",
        ),
        (Found::Unfit { place: 7 }, "unfit:7"),
    ];
    let told = "damaged 0:0:1:ca978112ca1bbdcafac231b39a23dc4da786eff8147c4e72b9807785afee48bb";
    for (found, words) in cases {
        let sink = written(&rt, Outcome::Reply(Reply::Damaged { kept, found }))?;
        let line = format!(in rt.alloc(); "{told} {words}\n")?;
        assert_eq!(rt; sink.bytes(), line.as_bytes());
    }
    Ok(())
}

fn row(slice: u32, index: u64) -> Result<PlacedRow, Fail>
    ensures { IfOk result (λ row. row.slice ≡ slice) }
{
    Ok(PlacedRow {
        slice,
        number: 2,
        path: path(b"f")?,
        index,
    })
}

#[test]
fn freed_slices_come_first(rt: HostRuntime) -> Result<(), Fail> {
    let mut moves = Moves::new(rt.alloc(), 2)?;
    moves.push_freed(0, 2);
    moves.push_freed(3, 7);
    moves.push_placed(row(1, 1)?)?;
    moves.push_placed(row(2, 2)?)?;
    let mut sink = MemSink::new(rt.alloc(), Vec::new(rt.alloc()));
    write_moves(&moves, &mut sink)?;
    assert_eq!(rt;
        sink.bytes(),
        b"- 0 2\n- 3 7\n+ 1 2 f 1\n+ 2 2 f 2\n".as_slice()
    );

    let mut failing = MemSink::new(rt.alloc(), Vec::from_slice(rt.alloc(), &[0u64])?);
    assert_eq!(rt; write_moves(&moves, &mut failing), Err(WriteFault));
    Ok(())
}
