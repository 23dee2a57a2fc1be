use super::*;
use std::process::Abort;
use std::test::Fail;

/// A name of three bytes for a number.
fn name(rt: &impl Abort, number: u16) -> Path {
    let text = [
        b'a' + (number / 676 % 26) as u8,
        b'a' + (number / 26 % 26) as u8,
        b'a' + (number % 26) as u8,
    ];
    Path::parse(&text).expect(rt, "a path")
}

/// So many names, put in their order.
fn many(rt: &impl Abort, alloc: Global, count: u16) -> Result<Leases, Fail> {
    let mut leases = Leases::new();
    for number in 0..count {
        let lease = Lease {
            end: u64::from(number),
            settled: false,
        };
        let knot = single(alloc, name(rt, number), lease)?;
        match leases.get(&knot.path) {
            Some(_) => panic!(rt; "a name of two numbers"),
            None => leases.put(knot),
        }
    }
    Ok(leases)
}

#[test]
fn a_search_tree_stays_low(rt: HostRuntime) -> Result<(), Fail> {
    let mut leases = many(&rt, rt.alloc(), 4096)?;
    assert!(rt; leases.height() <= 17, "rising");
    assert_eq!(rt; leases.least(), 0);
    for number in 0..4000u16 {
        leases.remove(&name(&rt, number));
    }
    assert!(rt; leases.height() <= 9, "taken out");
    assert_eq!(rt; leases.least(), 4000);
    assert_eq!(rt; leases.get(&name(&rt, 3999)), None);
    Ok(())
}
