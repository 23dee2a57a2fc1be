//! Each call once, on bytes and on lists of bytes.

use crate::ItemList;
use std::test::Fail;

#[test]
fn a_list_grows_and_is_cut(rt: HostRuntime) -> Result<(), Fail> {
    let alloc = rt.alloc();
    let mut list = ItemList::from_slice(alloc, b"ab")?;
    list.reserve(3)?;
    list.push(b'c')?;
    list.extend_from_slice(b"de")?;
    assert_eq!(rt; list.items(), b"abcde".as_slice());
    list.resize(7, b'-')?;
    list.items_mut()[0] = b'z';
    assert_eq!(rt; list.items(), b"zbcde--".as_slice());
    list.resize(2, b'-')?;
    assert!(rt; list == ItemList::from_slice(alloc, b"zb")?);
    assert!(rt; list != ItemList::from_slice(alloc, b"zc")?);
    list.clear();
    assert!(rt; list == ItemList::new(alloc));
    Ok(())
}

#[test]
fn a_list_is_made_of_a_vector(rt: HostRuntime) -> Result<(), Fail> {
    let alloc = rt.alloc();
    let mut lists = ItemList::new(alloc);
    lists.push(ItemList::from_slice(alloc, b"ab")?)?;
    let mut vec: Vec<ItemList<u8>> = Vec::from(lists);
    vec.push(ItemList::new(alloc))?;
    let lists = ItemList::from(vec);
    assert_eq!(rt; lists.items().len(), 2);
    assert_eq!(rt; lists.items()[0].items(), b"ab".as_slice());
    Ok(())
}
