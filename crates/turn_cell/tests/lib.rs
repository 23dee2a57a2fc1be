//! The numbers of the limits.

use crate::{CALLS_EACH, MOST_PASSES};

#[test]
fn limits_have_their_numbers(rt: HostRuntime) {
    assert_eq!(rt; u64::from(MOST_PASSES), 1_073_741_824);
    assert_eq!(rt; CALLS_EACH, 4_294_967_296);
}
