use super::*;

#[test]
fn first_broken_limit(rt: HostRuntime) {
    let plans = [
        (1, 1, 0, 0, 0),
        (
            1024,
            4_294_967_296,
            4_294_967_296,
            1_152_921_504_606_846_976,
            0,
        ),
        (0, 0, 1, 0, 1),
        (1025, 1, 0, 0, 1),
        (1, 0, 1, 0, 2),
        (1, 4_294_967_297, 0, 0, 2),
        (1, 5, 6, 1_152_921_504_606_846_977, 3),
        (1, 5, 5, 1_152_921_504_606_846_977, 4),
    ];
    for (users, fair, floor, credits, place) in plans {
        let broken = Shape::plan(users, fair, floor, credits).err();
        assert_eq!(rt; broken.map_or(0, |bad| bad.place), place);
    }

    let stores = [
        (1, 16_384, 0, 65_536, 0),
        (64, 1024, 0, 64, 0),
        (1, 0, 0, 63, 2),
        (1, 1, 0, 63, 5),
        (1, 1, 0, 65_537, 5),
        (1, 16_385, 0, 65_536, 6),
        (64, 1025, 0, 64, 6),
    ];
    for (users, fair, floor, slice, place) in stores {
        let broken = Shape::store(users, fair, floor, 0, slice).err();
        assert_eq!(rt; broken.map_or(0, |bad| bad.place), place);
    }
}
