//! The rules' rows, records of a block read, and plans whose blocks were worked by hand.

use crate::{Act, Chain, MovePlan, Plan, Records, RecordsEnd, move_plan, pack_plan, ripe};
use far_words::Unfit;
use std::test::Fail;

// The slots of the keys: `a` 300, the empty key 453, `k2` 8, `k1` 193.

// Values of so many bytes.
const VALUE: [u8; 48] = [b'v'; 48];

// The helpers have no contract, so that a test's proof carries none of the records.

fn block(rt: &HostRuntime, records: &[(&[u8], usize)]) -> Result<Records, Fail> {
    let mut block = Records::new(rt.alloc());
    for (key, count) in records {
        if key.len() > 100 || *count > 48 || block.size() > 10_000 {
            return Err(Fail::from("too long"));
        }
        block.push(key, &VALUE[..*count])?;
    }
    Ok(block)
}

fn chain(rt: &HostRuntime, blocks: &[&[(&[u8], usize)]]) -> Result<Chain, Fail> {
    let mut chain = Chain::new(rt.alloc());
    for records in blocks {
        chain.push(block(rt, records)?)?;
    }
    Ok(chain)
}

fn read(rt: &HostRuntime, bytes: &[u8]) -> Result<Records, RecordsEnd> {
    if bytes.len() > 65_536 {
        return Err(RecordsEnd::NoMemory);
    }
    Records::read(rt.alloc(), bytes)
}

fn packed(rt: &HostRuntime, all: &Records, size: u32) -> Result<Chain, Fail> {
    let Plan { left, right: _ } = pack_plan(rt.alloc(), all, size)?;
    Ok(left)
}

fn moved(
    rt: &HostRuntime,
    left: &Chain,
    last: &Records,
    from: u16,
    to: u16,
) -> Result<MovePlan, Fail> {
    let plan = move_plan(rt.alloc(), left, last, from, to, 64)?;
    Ok(plan)
}

// Whether two chains have the same bytes, block by block.
fn same(these: &Chain, those: &Chain) -> bool {
    these.items().len() == those.items().len()
        && these
            .items()
            .iter()
            .zip(those.items())
            .all(|(this, that)| this.bytes() == that.bytes())
}

#[test]
fn buckets_are_ripe_by_the_first_rule_that_fits(rt: HostRuntime) {
    assert_eq!(rt; ripe(0, 2, 2, 65, Some(0), 64), Some(Act::Split));
    assert_eq!(rt; ripe(0, 1, 2, 65, Some(0), 64), None);
    assert_eq!(rt; ripe(0, 2, 2, 64, Some(0), 64), Some(Act::Pack));
    assert_eq!(rt; ripe(0, 2, 1, 30, Some(2), 64), Some(Act::Merge));
    assert_eq!(rt; ripe(0, 2, 1, 30, Some(3), 64), None);
    assert_eq!(rt; ripe(0, 2, 0, 0, Some(32), 65), Some(Act::Merge));
    assert_eq!(rt; ripe(0, 2, 0, 0, Some(0), 64), None);
    assert_eq!(rt; ripe(0, 2, 1, 30, None, 64), None);
    assert_eq!(rt;
        ripe(0, 2, 1, u64::MAX, Some(u64::MAX), 64),
        Some(Act::Split)
    );
    assert_eq!(rt; ripe(0, 1, 1, u64::MAX, Some(u64::MAX), 64), None);
}

#[test]
fn records_of_a_block_are_read(rt: HostRuntime) -> Result<(), Fail> {
    let bytes = [
        0, 1, 0, 3, b'a', b'x', b'y', b'z', 0, 0, 0, 0, 0, 2, 0, 1, b'b', b'c', b'1',
    ];
    let records = match read(&rt, &bytes) {
        Ok(records) => records,
        Err(_) => return Err(Fail::from("not read")),
    };
    assert_eq!(rt; (records.len(), records.size()), (3, 19));
    assert_eq!(rt;
        (records.key(0), records.value(0)),
        (b"a".as_slice(), b"xyz".as_slice())
    );
    assert!(rt; records.key(1).is_empty() && records.value(1).is_empty());
    assert_eq!(rt;
        (records.key(2), records.value(2)),
        (b"bc".as_slice(), b"1".as_slice())
    );
    assert_eq!(rt; records.bytes(), bytes.as_slice());
    match read(&rt, &bytes[..18]) {
        Err(end) => assert_eq!(rt; end, RecordsEnd::Unfit(Unfit { place: 12 })),
        Ok(_) => return Err(Fail::from("it was read")),
    }
    Ok(())
}

#[test]
fn records_are_packed_first_fit(rt: HostRuntime) -> Result<(), Fail> {
    let all = block(&rt, &[(b"a", 40), (b"", 30), (b"a", 10), (b"", 20)])?;
    let plan = packed(&rt, &all, 64)?;
    let want = chain(&rt, &[&[(b"a", 40), (b"a", 10)], &[(b"", 30), (b"", 20)]])?;
    assert!(rt; same(&plan, &want));
    let plan = packed(&rt, &all, 200)?;
    let want = chain(&rt, &[&[(b"a", 40), (b"", 30), (b"a", 10), (b"", 20)]])?;
    assert!(rt; same(&plan, &want));
    let none = block(&rt, &[])?;
    assert!(rt; packed(&rt, &none, 64)?.items().is_empty());
    Ok(())
}

#[test]
fn records_move_over_a_boundary(rt: HostRuntime) -> Result<(), Fail> {
    let left = chain(&rt, &[&[(b"a", 40)], &[(b"", 20), (b"a", 10)], &[(b"", 9)]])?;
    let last = block(&rt, &[(b"a", 30)])?;
    let plan = moved(&rt, &left, &last, 448, 464)?;
    assert_eq!(rt; plan.left.items().len(), 2);
    assert_eq!(rt; (plan.left.items()[0].at, plan.left.items()[1].at), (1, 2));
    let kept = block(&rt, &[(b"a", 10)])?;
    assert_eq!(rt; plan.left.items()[0].kept.bytes(), kept.bytes());
    assert_eq!(rt; plan.left.items()[1].kept.len(), 0);
    let want = chain(&rt, &[&[(b"a", 30), (b"", 20)], &[(b"", 9)]])?;
    assert!(rt; same(&plan.right, &want));
    Ok(())
}

#[test]
fn where_none_moves_no_block_is_new(rt: HostRuntime) -> Result<(), Fail> {
    let left = chain(&rt, &[&[(b"a", 40)], &[(b"", 20), (b"a", 10)]])?;
    let last = block(&rt, &[(b"a", 30)])?;
    for (from, to) in [(0u16, 300u16), (301, 453), (454, 1024), (300, 300)] {
        let plan = moved(&rt, &left, &last, from, to)?;
        assert!(rt; plan.left.items().is_empty() && plan.right.items().is_empty());
    }
    let plan = moved(&rt, &left, &last, 300, 301)?;
    assert_eq!(rt; (plan.left.items().len(), plan.right.items().len()), (2, 2));
    Ok(())
}
