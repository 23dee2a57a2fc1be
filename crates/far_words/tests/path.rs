use super::*;
use crate::part::Part;
use std::process::Abort;
use std::test::Fail;

/// 32 bytes, of each sort that a part has.
const LONGEST: &str = "abcdefghijklmnopqrstuvwxYZ09_-..";

const GOOD: [&str; 8] = [
    "f",
    "Z",
    ".",
    "..",
    "job/shuffle",
    "a_B-9.x/0/-/_",
    "1/2/3/4/5/6/7/8",
    "abcdefghijklmnopqrstuvwxYZ09_-../f",
];

const BAD: [&str; 12] = [
    "",
    "/",
    "/f",
    "f/",
    "f//g",
    "1/2/3/4/5/6/7/8/9",
    "abcdefghijklmnopqrstuvwxYZ09_-..x",
    "f/abcdefghijklmnopqrstuvwxYZ09_-..x",
    "a b",
    "a%",
    "a\n",
    "caf\u{e9}",
];

fn parent(rt: &impl Abort, text: &str) -> Option<Path> {
    Path::parse(text.as_bytes()).expect(rt, text).parent()
}

#[test]
fn paths_are_parts_joined_by_slashes(rt: HostRuntime) {
    for text in &GOOD {
        assert_eq!(rt;
            Path::parse(text.as_bytes()).expect(&rt, text).bytes(),
            text.as_bytes()
        );
    }
    for text in &BAD {
        assert!(rt; Path::parse(text.as_bytes()).is_none(), "{text}");
    }
}

#[test]
fn the_longest_path_has_263_bytes(rt: HostRuntime) -> Result<(), Fail> {
    let mut text = Vec::new(rt.alloc());
    for _ in 0..8u8 {
        text.extend_from_slice(LONGEST.as_bytes())?;
        text.push(b'/')?;
    }
    assert!(rt;
        Path::parse(text.as_slice()).is_none(),
        "a slash at the end"
    );
    let _ = text.pop();
    assert_eq!(rt; text.len(), 263);
    assert!(rt; Path::parse(text.as_slice()).is_some());
    text.push(b'x')?;
    assert!(rt;
        Path::parse(text.as_slice()).is_none(),
        "a part of 33 bytes"
    );
    Ok(())
}

#[test]
fn a_part_has_1_to_32_bytes(rt: HostRuntime) {
    assert_eq!(rt;
        Part::parse(LONGEST.as_bytes())
            .expect(&rt, "a part")
            .bytes(),
        LONGEST.as_bytes()
    );
    assert!(rt; Part::parse(b"").is_none());
    assert!(rt; Part::parse(b"abcdefghijklmnopqrstuvwxYZ09_-..x").is_none());
    assert!(rt; Part::parse(b"a/b").is_none());
}

#[test]
fn a_parent_is_all_parts_but_the_last(rt: HostRuntime) {
    assert_eq!(rt; parent(&rt, "f"), None);
    assert_eq!(rt; parent(&rt, "job/in"), Path::parse(b"job"));
    assert_eq!(rt; parent(&rt, "a/b/c"), Path::parse(b"a/b"));
}
