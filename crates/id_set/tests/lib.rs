use super::*;
use std::test::Fail;

#[test]
fn keeps_members_in_order(rt: HostRuntime) -> Result<(), Fail> {
    let mut ids = IdSet::new(rt.alloc(), 5000)?;
    assert_eq!(rt; ids.first(), None);
    assert!(rt; ids.bound() == 5000);
    assert!(rt; ids.insert(4999));
    assert!(rt; ids.insert(64));
    assert!(rt; ids.insert(130));
    assert!(rt; !ids.insert(130), "it is there already");
    assert_eq!(rt; ids.first(), Some(64));
    assert_eq!(rt; ids.count(), 3);
    assert!(rt; ids.remove(64));
    assert!(rt; !ids.remove(64), "it is gone already");
    assert!(rt; !ids.remove(70_000), "past the bound");
    assert_eq!(rt; ids.first(), Some(130));
    assert!(rt; ids.contains(4999) && !ids.contains(64) && !ids.contains(70_000));
    Ok(())
}

#[test]
fn has_room_at_every_bound(rt: HostRuntime) -> Result<(), Fail> {
    for bound in [1, 63, 64, 65, 4096, 4097, 4_194_304] {
        let mut ids = IdSet::full(rt.alloc(), bound)?;
        assert_eq!(rt; ids.count(), bound);
        assert_eq!(rt; ids.first(), Some(0));
        let mut taken = 0u32;
        for id in 0..bound - 1 {
            taken = taken.saturating_add(u32::from(ids.remove(id)));
        }
        assert_eq!(rt;
            (taken, ids.count(), ids.first()),
            (bound - 1, 1, Some(bound - 1))
        );
        assert!(rt; !ids.contains(bound));
    }
    Ok(())
}

#[test]
fn grows_with_its_members(rt: HostRuntime) -> Result<(), Fail> {
    let mut ids = IdSet::new(rt.alloc(), 0)?;
    assert!(rt; ids.grow(rt.alloc(), 65, false).is_ok());
    assert_eq!(rt; (ids.bound(), ids.count(), ids.first()), (65, 0, None));
    assert!(rt; ids.insert(3) && ids.insert(64));
    assert!(rt; ids.grow(rt.alloc(), 130, true).is_ok());
    assert_eq!(rt; (ids.bound(), ids.count(), ids.first()), (130, 67, Some(3)));
    assert!(rt; ids.contains(64) && ids.contains(65) && ids.contains(129));
    assert!(rt; !ids.contains(63) && !ids.contains(130));
    assert!(rt; ids.grow(rt.alloc(), 130, false).is_ok(), "the same bound");
    assert_eq!(rt; (ids.bound(), ids.count()), (130, 67));
    assert!(rt; ids.grow(rt.alloc(), 4_194_304, false).is_ok());
    assert_eq!(rt;
        (ids.count(), ids.contains(129), ids.contains(130)),
        (67, true, false)
    );
    Ok(())
}
