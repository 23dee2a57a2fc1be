use super::*;
use far_words::{Kind, Names, Path};
use std::alloc::Global;
use std::process::Abort;
use std::test::Fail;

/// A body that is of a kind, and a number to tell it by.
#[derive(Debug, PartialEq, Eq, Drop)]
struct Body {
    kind: Kind,
    number: u64,
}

impl HasKind for Body {
    ghost kind_of = { λ body. body.kind };

    fn kind(&self) -> Kind {
        self.kind
    }
}

fn path(rt: &impl Abort, text: &str) -> Path {
    Path::parse(text.as_bytes()).expect(rt, text)
}

/// Makes a name, and answers why not.
fn make(
    rt: &impl Abort,
    tree: &mut Tree<Body>,
    text: &str,
    kind: Kind,
    end: u64,
) -> Option<TreeEnd> {
    match tree.make(path(rt, text), Body { kind, number: end }, end) {
        Ok(()) => None,
        Err((end, _)) => Some(end),
    }
}

fn lease(rt: &impl Abort, tree: &Tree<Body>, text: &str) -> Option<u64> {
    tree.lease_of(&path(rt, text))
}

/// A directory `d` with the file `d/g`, and a file `f`.
fn small(rt: &impl Abort, alloc: Global) -> Tree<Body> {
    let mut tree = Tree::new(alloc);
    assert_eq!(rt; make(rt, &mut tree, "f", Kind::File, 5), None);
    assert_eq!(rt; make(rt, &mut tree, "d", Kind::Dir, 7), None);
    assert_eq!(rt; make(rt, &mut tree, "d/g", Kind::File, 4), None);
    tree
}

/// How many parts are listed, and the parts, each with a space after it.
fn listed(
    alloc: Global,
    tree: &Tree<Body>,
    under: Option<&Path>,
    after: &str,
) -> Result<(usize, Vec<u8>), Fail> {
    let mut names = Names::new(alloc);
    let mut shown = Vec::new(alloc);
    if tree.list(under, after.as_bytes(), &mut names).is_ok() {
        for part in names.items() {
            shown.extend_from_slice(part.bytes())?;
            shown.push(b' ')?;
        }
    }
    Ok((names.items().len(), shown))
}

#[test]
fn names_are_made_renewed_listed_and_dropped(rt: HostRuntime) -> Result<(), Fail> {
    let mut tree = small(&rt, rt.alloc());
    assert_eq!(rt; lease(&rt, &tree, "d/g"), Some(4));
    assert_eq!(rt; tree.renew(&path(&rt, "d/g"), 13), Ok(()));
    assert_eq!(rt; lease(&rt, &tree, "d"), Some(13));
    assert_eq!(rt; lease(&rt, &tree, "d/g"), Some(13));
    assert_eq!(rt; lease(&rt, &tree, "f"), Some(5));
    let under = path(&rt, "d");
    assert_eq!(rt;
        listed(rt.alloc(), &tree, None, "")?.1.as_slice(),
        b"d f ".as_slice()
    );
    assert_eq!(rt;
        listed(rt.alloc(), &tree, Some(&under), "")?.1.as_slice(),
        b"g ".as_slice()
    );
    assert_eq!(rt;
        make(&rt, &mut tree, "f/x", Kind::File, 4),
        Some(TreeEnd::WrongKind)
    );
    assert_eq!(rt; dropped(&rt, &mut tree, "d"), Some((path(&rt, "d/g"), 4)));
    assert_eq!(rt; dropped(&rt, &mut tree, "d"), Some((under.copy(), 7)));
    assert_eq!(rt; dropped(&rt, &mut tree, "d"), None);
    assert_eq!(rt; lease(&rt, &tree, "d/g"), None);
    assert_eq!(rt; lease(&rt, &tree, "f"), Some(5));
    Ok(())
}

fn dropped(rt: &impl Abort, tree: &mut Tree<Body>, text: &str) -> Option<(Path, u64)> {
    let (name, body) = tree.drop_next(&path(rt, text))?;
    Some((name, body.number))
}

#[test]
fn refusals_come_in_their_order(rt: HostRuntime) {
    let mut tree = small(&rt, rt.alloc());
    assert_eq!(rt;
        make(&rt, &mut tree, "e/x", Kind::File, 1),
        Some(TreeEnd::Absent)
    );
    assert_eq!(rt;
        make(&rt, &mut tree, "d/g/x", Kind::File, 1),
        Some(TreeEnd::WrongKind)
    );
    assert_eq!(rt;
        make(&rt, &mut tree, "d/g", Kind::Dir, 1),
        Some(TreeEnd::Exists)
    );
    assert_eq!(rt;
        make(&rt, &mut tree, "d", Kind::Dir, 1),
        Some(TreeEnd::Exists)
    );
    assert_eq!(rt; tree.renew(&path(&rt, "e"), 1), Err(TreeEnd::Absent));
    let mut names = Names::new(rt.alloc());
    assert_eq!(rt;
        tree.list(Some(&path(&rt, "e")), b"", &mut names),
        Err(TreeEnd::Absent)
    );
    assert_eq!(rt;
        tree.list(Some(&path(&rt, "f")), b"", &mut names),
        Err(TreeEnd::WrongKind)
    );
    assert_eq!(rt; lease(&rt, &tree, "d/g"), Some(4));
}

#[test]
fn a_renewal_reaches_both_ways_and_no_other_name(rt: HostRuntime) {
    let mut tree = Tree::new(rt.alloc());
    for text in [
        "a", "a-b", "a.c", "a/b", "a/b-c", "a/b/c", "a/b/c/d", "a/b0", "a0",
    ] {
        assert_eq!(rt; make(&rt, &mut tree, text, Kind::Dir, 10), None);
    }
    assert_eq!(rt; tree.renew(&path(&rt, "a/b/c/d"), 30), Ok(()));
    assert_eq!(rt; tree.renew(&path(&rt, "a/b"), 20), Ok(()));
    for text in ["a", "a/b", "a/b/c", "a/b/c/d"] {
        assert_eq!(rt; lease(&rt, &tree, text), Some(30), "{text}");
    }
    for text in ["a-b", "a.c", "a/b-c", "a/b0", "a0"] {
        assert_eq!(rt; lease(&rt, &tree, text), Some(10), "{text}");
    }
    assert_eq!(rt; tree.renew(&path(&rt, "a"), u64::MAX), Ok(()));
    for text in ["a", "a/b", "a/b-c", "a/b/c", "a/b/c/d", "a/b0"] {
        assert_eq!(rt; lease(&rt, &tree, text), Some(u64::MAX), "{text}");
    }
    assert_eq!(rt; tree.renew(&path(&rt, "a"), 40), Ok(()));
    assert_eq!(rt; lease(&rt, &tree, "a"), Some(u64::MAX));
    assert_eq!(rt; lease(&rt, &tree, "a0"), Some(10));
}

#[test]
fn a_tree_is_eight_parts_deep(rt: HostRuntime) -> Result<(), Fail> {
    let mut tree = Tree::new(rt.alloc());
    for text in [
        "a",
        "a/b",
        "a/b/c",
        "a/b/c/d",
        "a/b/c/d/e",
        "a/b/c/d/e/f",
        "a/b/c/d/e/f/g",
        "a/b/c/d/e/f/g/h",
    ] {
        assert_eq!(rt; make(&rt, &mut tree, text, Kind::Dir, 10), None);
    }
    let deepest = path(&rt, "a/b/c/d/e/f/g/h");
    assert_eq!(rt; tree.renew(&deepest, 20), Ok(()));
    assert_eq!(rt; lease(&rt, &tree, "a"), Some(20));
    assert_eq!(rt; tree.next_expired(20, None), None);
    let under = path(&rt, "a/b/c/d/e/f/g");
    assert_eq!(rt;
        listed(rt.alloc(), &tree, Some(&under), "")?.1.as_slice(),
        b"h ".as_slice()
    );
    assert_eq!(rt; dropped(&rt, &mut tree, "a"), Some((deepest, 10)));
    assert_eq!(rt; dropped(&rt, &mut tree, "a"), Some((under, 10)));
    Ok(())
}

#[test]
fn names_end_in_the_order_of_their_bytes(rt: HostRuntime) {
    let mut tree = Tree::new(rt.alloc());
    for (text, end) in [("a", 3), ("a/b", 1), ("a-b", 2), ("b", 9), ("c", 2)] {
        assert_eq!(rt; make(&rt, &mut tree, text, Kind::Dir, end), None);
    }
    assert_eq!(rt; tree.next_expired(1, None), None);
    assert_eq!(rt; tree.next_expired(2, None), Some(path(&rt, "a/b")));
    assert_eq!(rt; tree.next_expired(3, None), Some(path(&rt, "a-b")));
    assert_eq!(rt;
        tree.next_expired(3, Some(&path(&rt, "a-b"))),
        Some(path(&rt, "a/b"))
    );
    assert_eq!(rt;
        tree.next_expired(3, Some(&path(&rt, "a/b"))),
        Some(path(&rt, "c"))
    );
    assert_eq!(rt; tree.next_expired(4, None), Some(path(&rt, "a")));
    assert_eq!(rt;
        tree.next_expired(u64::MAX, Some(&path(&rt, "a/b"))),
        Some(path(&rt, "b"))
    );
    assert_eq!(rt; tree.next_expired(u64::MAX, Some(&path(&rt, "c"))), None);
}

#[test]
fn a_settled_end_waits_until_its_body_is_lent(rt: HostRuntime) {
    let mut tree = small(&rt, rt.alloc());
    let g = path(&rt, "d/g");
    assert_eq!(rt; tree.next_expired(6, None), Some(g.copy()));
    tree.settle(&g);
    assert_eq!(rt; tree.next_expired(6, None), Some(path(&rt, "f")));
    assert_eq!(rt; tree.lease_of(&g), Some(4));
    assert_eq!(rt; tree.renew(&g, 5), Ok(()));
    assert_eq!(rt; tree.next_expired(6, None), Some(path(&rt, "f")));
    tree.find(&g).expect(&rt, "d/g is there").number = 1;
    assert_eq!(rt; tree.next_expired(6, None), Some(g.copy()));
    assert_eq!(rt;
        tree.get(&g),
        Some(&Body {
            kind: Kind::File,
            number: 1
        })
    );
    assert!(rt; tree.find(&path(&rt, "x")).is_none());
}

#[test]
fn names_follow_each_other_by_bytes(rt: HostRuntime) {
    let mut tree: Tree<Body> = Tree::new(rt.alloc());
    assert_eq!(rt; tree.next_name(None), None);
    for text in ["b", "a", "a/b", "a-b", "a/b/c"] {
        assert_eq!(rt; make(&rt, &mut tree, text, Kind::Dir, 1), None);
    }
    let mut last = None;
    for text in ["a", "a-b", "a/b", "a/b/c", "b"] {
        let next = tree.next_name(last.as_ref());
        assert_eq!(rt; next, Some(path(&rt, text)));
        last = next;
    }
    assert_eq!(rt; tree.next_name(last.as_ref()), None);
    for text in ["a/b/c", "a/b", "a"] {
        assert_eq!(rt; dropped(&rt, &mut tree, "a"), Some((path(&rt, text), 1)));
    }
    assert_eq!(rt; dropped(&rt, &mut tree, "a"), None);
    assert_eq!(rt; tree.next_name(None), Some(path(&rt, "a-b")));
}

/// The name of a number: four digits.
fn digits(rt: &impl Abort, alloc: Global, under: &str, number: u16) -> Result<Path, Fail> {
    let mut text = Vec::from_slice(alloc, under.as_bytes())?;
    for place in [1000u16, 100, 10, 1] {
        text.push(b'0' + (number / place % 10) as u8)?;
    }
    Ok(Path::parse(text.as_slice()).expect(rt, "a path"))
}

/// Makes a directory.
fn add(rt: &impl Abort, tree: &mut Tree<Body>, name: Path) {
    let body = Body {
        kind: Kind::Dir,
        number: 0,
    };
    assert!(rt; tree.make(name, body, 1).is_ok());
}

/// Makes so many directories under `d`, named by their numbers.
fn fill(rt: &impl Abort, alloc: Global, tree: &mut Tree<Body>, count: u16) -> Result<(), Fail> {
    for number in 0..count {
        let name = digits(rt, alloc, "d/", number)?;
        add(rt, tree, name);
    }
    Ok(())
}

#[test]
fn a_list_has_at_most_1024_parts(rt: HostRuntime) -> Result<(), Fail> {
    let mut tree = Tree::new(rt.alloc());
    add(&rt, &mut tree, path(&rt, "d"));
    fill(&rt, rt.alloc(), &mut tree, 1025)?;
    let under = path(&rt, "d");
    let all = listed(rt.alloc(), &tree, Some(&under), "")?;
    assert_eq!(rt; all.0, 1024);
    assert!(rt; all.1.as_slice().ends_with(b"1022 1023 "));
    let rest = listed(rt.alloc(), &tree, Some(&under), "1021")?;
    assert_eq!(rt; rest.1.as_slice(), b"1022 1023 1024 ".as_slice());
    Ok(())
}

#[test]
fn a_list_passes_over_what_is_under_its_parts(rt: HostRuntime) -> Result<(), Fail> {
    let mut tree = Tree::new(rt.alloc());
    for text in [
        "d", "d/a", "d/a/x", "d/a/y", "d/a-b", "d/a.b", "d/a0", "d-e", "e",
    ] {
        assert_eq!(rt; make(&rt, &mut tree, text, Kind::Dir, 1), None);
    }
    let under = path(&rt, "d");
    assert_eq!(rt;
        listed(rt.alloc(), &tree, Some(&under), "")?.1.as_slice(),
        b"a a-b a.b a0 ".as_slice()
    );
    assert_eq!(rt;
        listed(rt.alloc(), &tree, Some(&under), "a-b")?.1.as_slice(),
        b"a.b a0 ".as_slice()
    );
    assert_eq!(rt;
        listed(rt.alloc(), &tree, None, "d")?.1.as_slice(),
        b"d-e e ".as_slice()
    );
    Ok(())
}
