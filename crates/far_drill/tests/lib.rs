//! The script and the summary beside vectors of a program in another language (Python), over the table of
//! `docs/FORMATS.md`.

use crate::{DrillSink, DrillSource, Summary};
use far_io::{Raw, Sink, Source, put_all};
use std::test::Fail;

// The script of this start, taken in pieces of at most `piece` bytes.
fn script(rt: &HostRuntime, start: u64, size: u64, piece: usize) -> Result<Raw, Fail> {
    let mut source = DrillSource::new(start, size);
    let mut text = Raw::new(rt.alloc());
    let mut out = vec![in rt.alloc(); 0u8; piece]?;
    for _ in 0..100_000 {
        let Ok(count) = source.take(out.as_mut_slice()) else {
            return Err(Fail::from("the source failed"));
        };
        if count == 0 {
            return Ok(text);
        }
        text.extend_from_slice(&out[..count])?;
    }
    Err(Fail::from("the script doesn't end"))
}

// What is told of these bytes, given in pieces of at most `piece` bytes.
fn summary_of(bytes: &[u8], piece: usize) -> Result<Summary, Fail> {
    let mut sink = DrillSink::new();
    for part in bytes.chunks(piece.max(1)) {
        if put_all(&mut sink, part).is_err() {
            return Err(Fail::from("the sink failed"));
        }
    }
    Ok(sink.summary())
}

const FIRST: &str = "\
make 0 t table 1000000\n\
make 0 q queue 1000000\n\
make 0 f file 1000000\n\
make 1 t table 1000000\n\
make 1 q queue 1000000\n\
make 1 f file 1000000\n\
make 2 t table 1000000\n\
make 2 q queue 1000000\n\
make 2 f file 1000000\n\
make 3 t table 1000000\n\
make 3 q queue 1000000\n\
make 3 f file 1000000\n\
remove 2 t k457\n\
now 2\n\
report 1 20\n\
put 1 t k354 585718673\n\
append 1 f 572045545\n\
put 3 t k144 297257219\n\
append 0 f 865189864\n\
get 0 t k496\n\
get 3 t k183\n\
quantum\n\
put 3 t k128 903112195\n\
report 3 6\n\
put 0 t k213 416493632\n\
report 0 17\n\
remove 1 t k155\n\
push 2 q 135788962\n\
now 17\n\
report 3 9\n\
read 0 f 168 50\n\
remove 3 t k30\n\
get 0 t k483\n\
push 1 q 778533793\n\
quantum\n\
report 2 28\n\
remove 1 t k41\n\
report 0 33\n\
get 0 t k469\n\
get 1 t k155\n\
put 1 t k467 642109893\n\
report 0 13\n\
append 0 f 498251752\n\
remove 1 t k242\n\
pop 2 q\n\
put 3 t k76 1624676875\n\
remove 1 t k96\n\
put 3 t k280 810833939\n\
get 1 t k456\n\
get 3 t k145\n\
pop 0 q\n\
append 0 f 816571752\n\
";

#[test]
fn the_script_of_seven(rt: HostRuntime) -> Result<(), Fail> {
    for piece in [1, 3, 24, 4096] {
        let text = script(&rt, 7, 40, piece)?;
        assert_eq!(rt; text.items(), FIRST.as_bytes());
    }
    Ok(())
}

#[test]
fn nothing_is_drawn(rt: HostRuntime) -> Result<(), Fail> {
    let text = script(&rt, 7, 0, 100)?;
    assert_eq!(rt; text.items(), &FIRST.as_bytes()[..272]);
    Ok(())
}

// As an output, a script has a line `quantum` for each of its quanta, and no line that tells a refusal.
#[test]
fn longer_scripts(rt: HostRuntime) -> Result<(), Fail> {
    let seven = [
        0xf3, 0x6c, 0x1a, 0x31, 0xa6, 0xc3, 0x3a, 0x0d, 0x46, 0xfd, 0xc0, 0xf8, 0xad, 0xae, 0xd6,
        0x4d, 0x7c, 0xae, 0xce, 0xc2, 0x66, 0x5a, 0x5d, 0x4f, 0x3b, 0x50, 0xa3, 0x7f, 0xf2, 0xb8,
        0xbb, 0xdd,
    ];
    let greatest = [
        0x31, 0x65, 0x77, 0x46, 0xea, 0x74, 0x3d, 0xce, 0xbb, 0x68, 0x7a, 0xc0, 0x6a, 0x98, 0x64,
        0xb8, 0x86, 0x69, 0x0a, 0xb1, 0xf0, 0x80, 0x0b, 0x1b, 0x2c, 0xc2, 0x3d, 0xdb, 0x78, 0xb3,
        0x16, 0x3b,
    ];
    for (start, size, quanta, digest) in [(7, 1000, 69, seven), (u64::MAX, 2000, 131, greatest)] {
        let text = script(&rt, start, size, 1000)?;
        let told = summary_of(text.items(), 4096)?;
        assert_eq!(rt;
            told,
            Summary {
                refused: 0,
                quanta,
                digest
            }
        );
    }
    Ok(())
}

const OUTPUT: &str = "\
toolong 3 4\n\
full 3 4\n\
toomuch 3 4\n\
absent 3 4\n\
wrongkind 3 4\n\
exists 3 4\n\
exhausted 3 4\n\
noroom 3 4\n\
storefault 3 4\n\
damaged 3 4\n\
stale 3 4\n\
absentuser 3 4\n\
handempty 3 4\n\
poolempty 3 4\n\
toolong\n\
full\n\
toomuch\n\
absent\n\
wrongkind\n\
exists\n\
exhausted\n\
noroom\n\
storefault\n\
damaged\n\
stale\n\
absentuser\n\
handempty\n\
poolempty\n\
done\n\
expire 0 storefault\n\
yield 1 storefault\n\
grant 0 poolempty\n\
quantum 0\n\
demand 1 2\n\
late 0\n\
fullness 3\n\
full \n\
\x20full\n\
absentusers 4\n\
storefaultstorefault 1\n\
\n\
- 0 3\n\
bytes full\n\
quantum\n\
quantums 1\n\
spent\n\
number 4\n\
stale 1 unused\n\
full";

// 30 of its ended lines begin with the word of a refusal, and two with `quantum`. The last line has no line end.
#[test]
fn lines_are_counted_by_their_first_words(rt: HostRuntime) -> Result<(), Fail> {
    let want = Summary {
        refused: 30,
        quanta: 2,
        digest: [
            0x9f, 0xa2, 0x02, 0xcf, 0x3b, 0x84, 0x0d, 0xd6, 0xed, 0x5a, 0x6b, 0x12, 0xab, 0x14,
            0x65, 0xa9, 0x68, 0x95, 0x98, 0x12, 0x66, 0x12, 0x7d, 0x5e, 0x2b, 0x95, 0xa2, 0x3b,
            0x2a, 0x1c, 0x5e, 0xcb,
        ],
    };
    for piece in [1, 2, 7, 64, 4096] {
        assert_eq!(rt; summary_of(OUTPUT.as_bytes(), piece)?, want);
    }
    Ok(())
}

#[test]
fn nothing_taken(rt: HostRuntime) -> Result<(), Fail> {
    let want = Summary {
        refused: 0,
        quanta: 0,
        digest: [
            0xe3, 0xb0, 0xc4, 0x42, 0x98, 0xfc, 0x1c, 0x14, 0x9a, 0xfb, 0xf4, 0xc8, 0x99, 0x6f,
            0xb9, 0x24, 0x27, 0xae, 0x41, 0xe4, 0x64, 0x9b, 0x93, 0x4c, 0xa4, 0x95, 0x99, 0x1b,
            0x78, 0x52, 0xb8, 0x55,
        ],
    };
    assert_eq!(rt; summary_of(b"", 1)?, want);
    Ok(())
}
