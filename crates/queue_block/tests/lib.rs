//! Items that are put one after the other and read again, and bytes that aren't whole items.
use crate::{next_item, put_item};
use far_words::{Blob, Unfit};
use std::test::Fail;

/// The items `ab`, none, and `c`: as Python's `struct.pack('>I', n)` and the bytes give them.
const THREE: [u8; 15] = [0, 0, 0, 2, b'a', b'b', 0, 0, 0, 0, 0, 0, 0, 1, b'c'];

#[test]
fn puts_and_reads_three_items(rt: HostRuntime) -> Result<(), Fail> {
    let mut bytes = Blob::new(rt.alloc());
    put_item(&mut bytes, b"ab")?;
    put_item(&mut bytes, b"")?;
    put_item(&mut bytes, b"c")?;
    assert!(rt; bytes.items() == THREE.as_slice());

    assert_eq!(rt; next_item(&THREE, 0), Ok(Some(b"ab".as_slice())));
    assert_eq!(rt; next_item(&THREE, 6), Ok(Some(b"".as_slice())));
    assert_eq!(rt; next_item(&THREE, 10), Ok(Some(b"c".as_slice())));
    assert_eq!(rt; next_item(&THREE, 15), Ok(None));
    Ok(())
}

#[test]
fn refuses_an_item_that_is_cut_off(rt: HostRuntime) {
    let first = Ok(Some(b"ab".as_slice()));
    assert_eq!(rt; next_item(&THREE[..6], 0), first);
    assert_eq!(rt; next_item(&THREE[..5], 0), Err(Unfit { place: 0 }));
    assert_eq!(rt; next_item(&THREE[..3], 0), Err(Unfit { place: 0 }));
    assert_eq!(rt; next_item(&THREE[..14], 10), Err(Unfit { place: 10 }));
    assert_eq!(rt; next_item(&THREE[..9], 6), Err(Unfit { place: 6 }));
    assert_eq!(rt;
        next_item(&[255, 255, 255, 255, 0], 0),
        Err(Unfit { place: 0 })
    );
}
