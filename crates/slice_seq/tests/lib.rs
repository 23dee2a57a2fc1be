use super::*;
use std::test::Fail;

fn used(slice: Slice) -> Used
    requires { slice.number < WORN }
    ensures { result ≡ record { id = slice.id; size = slice.size; number = slice.number + 1; bytes = [] } }
{
    match slice.fresh_use() {
        Ok(used) => used,
        Err(_worn) => unreachable!(),
    }
}

#[test]
fn rises_with_each_grant_and_use(rt: HostRuntime) -> Result<(), Fail> {
    let used = used(Slice::fresh(rt.alloc(), 7, 64, 0)?.grant().grant());
    assert_eq!(rt;
        (used.id(), used.size(), used.number(), used.length()),
        (7, 64, 3, 0)
    );
    let slice = used.retire();
    assert_eq!(rt; (slice.id(), slice.size(), slice.number()), (7, 64, 3));
    slice.free();
    Ok(())
}

#[test]
fn wears_out_at_the_last_number(rt: HostRuntime) -> Result<(), Fail> {
    let used = used(Slice::fresh(rt.alloc(), 0, 1, 9_223_372_036_854_775_807)?);
    assert_eq!(rt; used.number(), 9_223_372_036_854_775_808);
    let slice = used.retire().grant();
    assert!(rt; slice.is_worn());
    match slice.fresh_use() {
        Ok(_used) => unreachable!(),
        Err(slice) => {
            assert_eq!(rt; slice.number(), 9_223_372_036_854_775_808);
            slice.free();
        }
    }
    Ok(())
}

#[test]
fn writes_over_its_bytes_and_past_their_end(rt: HostRuntime) -> Result<(), Fail> {
    let mut used = used(Slice::fresh(rt.alloc(), 0, 8, 0)?);
    used.set(b"abcdef");
    used.write_at(4, b"XYZ");
    assert_eq!(rt; used.read(), b"abcdXYZ".as_slice());
    used.write_at(0, b"__");
    assert_eq!(rt; used.read(), b"__cdXYZ".as_slice());
    used.set(b"q");
    assert_eq!(rt; (used.read(), used.length()), (b"q".as_slice(), 1));
    used.retire().free();
    Ok(())
}
