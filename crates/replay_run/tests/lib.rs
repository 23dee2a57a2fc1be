//! The number of the limit.

use crate::MOST_LINES;

#[test]
fn the_limit_has_its_number(rt: HostRuntime) {
    assert_eq!(rt; MOST_LINES, 4_294_967_296);
}
