//! The format's image both ways, and each refusal of a read, with fields worked by hand.

use crate::{HEAD, View, read_image, stamp_of, write_image};
use far_words::{ImageFault, Stamp};
use std::test::Fail;

// The SHA-256 of `a`, and the image of user 0, block 0, content `a`: 54 bytes.
const DIGEST_OF_A: [u8; 32] = [
    0xca, 0x97, 0x81, 0x12, 0xca, 0x1b, 0xbd, 0xca, 0xfa, 0xc2, 0x31, 0xb3, 0x9a, 0x23, 0xdc, 0x4d,
    0xa7, 0x86, 0xef, 0xf8, 0x14, 0x7c, 0x4e, 0x72, 0xb9, 0x80, 0x77, 0x85, 0xaf, 0xee, 0x48, 0xbb,
];

const IMAGE_OF_A: [u8; 54] = [
    0x46, 0x4d, 0x42, 0x31, 0x01, 0x00, 0x00, 0x00, 0x00, 0x00, 0x00, 0x00, 0x00, 0x00, 0x00, 0x00,
    0x00, 0x00, 0x00, 0x00, 0x01, 0xca, 0x97, 0x81, 0x12, 0xca, 0x1b, 0xbd, 0xca, 0xfa, 0xc2, 0x31,
    0xb3, 0x9a, 0x23, 0xdc, 0x4d, 0xa7, 0x86, 0xef, 0xf8, 0x14, 0x7c, 0x4e, 0x72, 0xb9, 0x80, 0x77,
    0x85, 0xaf, 0xee, 0x48, 0xbb, 0x61,
];

// What stands before the content `hello` of block 2^40 + 5 of user 7, but for the digest.
const HEAD_OF_HELLO: [u8; 21] = [
    0x46, 0x4d, 0x42, 0x31, 0x01, 0x00, 0x00, 0x00, 0x07, 0x00, 0x00, 0x01, 0x00, 0x00, 0x00, 0x00,
    0x05, 0x00, 0x00, 0x00, 0x05,
];

// The helpers have no contract, so that a test's proof carries none of the images'.

fn written(rt: &HostRuntime, user: u32, block: u64, content: &[u8]) -> Result<Vec<u8>, Fail> {
    if content.is_empty() || content.len() > 65_536 {
        return Err(Fail::from("no block"));
    }
    let mut out = vec![in rt.alloc(); 0u8; HEAD + content.len() + 3]?;
    let count = write_image(&stamp_of(user, block, content), content, &mut out);
    out.truncate(count);
    Ok(out)
}

fn read(bytes: &[u8]) -> Result<View, ImageFault> {
    if bytes.len() > 100_000 {
        return Err(ImageFault::Magic);
    }
    read_image(bytes)
}

// The fault of the image of `a` with one byte changed, and cut or grown to so many bytes.
fn fault(rt: &HostRuntime, at: usize, byte: u8, len: usize) -> Result<ImageFault, Fail> {
    let mut image = Vec::from_slice(rt.alloc(), &IMAGE_OF_A)?;
    if at < image.len() {
        image[at] = byte;
    }
    image.resize(len, 0)?;
    match read(image.as_slice()) {
        Err(fault) => Ok(fault),
        Ok(_) => Err(Fail::from("it was read")),
    }
}

#[test]
fn the_image_of_the_format(rt: HostRuntime) -> Result<(), Fail> {
    let image = written(&rt, 0, 0, b"a")?;
    assert_eq!(rt; image.as_slice(), IMAGE_OF_A.as_slice());
    let stamp = Stamp {
        user: 0,
        block: 0,
        length: 1,
        digest: DIGEST_OF_A,
    };
    assert_eq!(rt; read(&IMAGE_OF_A), Ok(View { stamp, from: 53 }));
    Ok(())
}

#[test]
fn images_are_read_as_they_were_written(rt: HostRuntime) -> Result<(), Fail> {
    let image = written(&rt, 7, (1 << 40) + 5, b"hello")?;
    assert_eq!(rt; &image[..21.min(image.len())], HEAD_OF_HELLO.as_slice());
    for (user, block, len) in [
        (0u32, 0u64, 1usize),
        (7, 5, 64),
        (u32::MAX, u64::MAX, 65_536),
    ] {
        let content = vec![in rt.alloc(); b'x'; len]?;
        let image = written(&rt, user, block, content.as_slice())?;
        assert_eq!(rt; image.len(), len.saturating_add(53));
        let view = match read(image.as_slice()) {
            Ok(view) => view,
            Err(_) => return Err(Fail::from("it was refused")),
        };
        assert_eq!(rt;
            (view.stamp.user, view.stamp.block, view.stamp.length),
            (user, block, len as u32)
        );
        assert!(rt; image.as_slice().ends_with(content.as_slice()));
    }
    Ok(())
}

#[test]
fn bytes_that_are_no_image(rt: HostRuntime) -> Result<(), Fail> {
    let zeros = [0u8; 54];
    assert_eq!(rt; read(&zeros[..10]), Err(ImageFault::Short { have: 10 }));
    assert_eq!(rt; read(&zeros), Err(ImageFault::Magic));
    for (at, byte, len, want) in [
        (54usize, 0u8, 52usize, ImageFault::Short { have: 52 }),
        (3, 0x32, 54, ImageFault::Magic),
        (4, 9, 54, ImageFault::Version { found: 9 }),
        (20, 2, 54, ImageFault::Length { said: 2, have: 1 }),
        (54, 0, 55, ImageFault::Length { said: 1, have: 2 }),
        (54, 0, 53, ImageFault::Length { said: 1, have: 0 }),
        (20, 0, 53, ImageFault::Length { said: 0, have: 0 }),
        (
            17,
            1,
            54,
            ImageFault::Length {
                said: 0x0100_0001,
                have: 1,
            },
        ),
    ] {
        assert_eq!(rt; fault(&rt, at, byte, len)?, want);
    }
    Ok(())
}

#[test]
fn a_digest_that_disagrees(rt: HostRuntime) -> Result<(), Fail> {
    let mut kept = DIGEST_OF_A;
    kept[0] = 0;
    let other = ImageFault::Digest {
        kept,
        found: DIGEST_OF_A,
    };
    assert_eq!(rt; fault(&rt, 21, 0, 54)?, other);
    match fault(&rt, 53, b'b', 54)? {
        ImageFault::Digest { kept, found } => {
            assert_eq!(rt; kept, DIGEST_OF_A);
            assert_eq!(rt; (found[0], found[1], found[31]), (0x3e, 0x23, 0x9d));
        }
        _ => return Err(Fail::from("another fault")),
    }
    Ok(())
}

#[test]
fn what_is_wrong_first_is_named(rt: HostRuntime) -> Result<(), Fail> {
    let mut image = IMAGE_OF_A;
    image[53] = b'b';
    image[20] = 2;
    assert_eq!(rt; read(&image), Err(ImageFault::Length { said: 2, have: 1 }));
    image[4] = 9;
    assert_eq!(rt; read(&image), Err(ImageFault::Version { found: 9 }));
    image[0] = 0;
    assert_eq!(rt; read(&image), Err(ImageFault::Magic));
    assert_eq!(rt; read(&image[..52]), Err(ImageFault::Short { have: 52 }));
    Ok(())
}
