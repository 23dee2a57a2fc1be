use super::*;
use crate::row::Share;

/// Each user's demand with its credits before and after, and what it is given.
type Users = [(u32, u32, u32, u32); 3];

fn row(demand: u32, credits: u32, given: u32, share: Share) -> Row
    ensures { result ≡ record {
      demand = demand;
      credits = credits;
      given = given;
      fair = share.fair;
      floor = share.floor;
      present = true;
    } }
{
    Row {
        demand: u64::from(demand),
        credits: u64::from(credits),
        given: u64::from(given),
        fair: share.fair,
        floor: share.floor,
        present: true,
    }
}

#[test]
fn worked_quanta(rt: HostRuntime) {
    // The floor, what the fair share is above it, and the users.
    let table: [(u8, u8, Users); 6] = [
        (1, 1, [(3, 5, 4, 3), (2, 5, 5, 2), (1, 5, 6, 1)]),
        (1, 1, [(3, 4, 3, 3), (0, 5, 7, 0), (0, 6, 8, 0)]),
        (1, 1, [(0, 3, 5, 0), (4, 7, 6, 3), (4, 8, 7, 3)]),
        (2, 0, [(4, 0, 0, 2), (0, 0, 0, 0), (0, 0, 0, 0)]),
        (4, 0, [(12, 3, 0, 7), (0, 3, 5, 0), (0, 3, 4, 0)]),
        (0, 3, [(9, 0, 0, 3), (9, 1, 0, 4), (2, 9, 10, 2)]),
    ];
    for (floor, above, users) in table {
        let [first, second, third] = users;
        let floor = u64::from(floor);
        let share = Share {
            fair: floor + u64::from(above),
            floor,
        };
        let mut rows = [
            row(first.0, first.1, 0, share),
            row(second.0, second.1, 0, share),
            row(third.0, third.1, 0, share),
        ];
        plain_quantum(&mut rows);
        assert_eq!(rt;
            rows,
            [
                row(first.0, first.2, first.3, share),
                row(second.0, second.2, second.3, share),
                row(third.0, third.2, third.3, share),
            ]
        );
    }
}

fn away(demand: u64) -> Row
    ensures { result ≡ record {
      demand = demand;
      credits = 0;
      given = 0;
      fair = 0;
      floor = 0;
      present = false;
    } }
{
    Row {
        demand,
        credits: 0,
        given: 0,
        fair: 0,
        floor: 0,
        present: false,
    }
}

#[test]
fn shares_of_their_own_and_a_user_away(rt: HostRuntime) {
    let shares = [
        Share { fair: 5, floor: 4 },
        Share { fair: 3, floor: 0 },
        Share { fair: 4, floor: 4 },
    ];
    let mut rows = [
        row(9, 3, 0, shares[0]),
        row(4, 7, 0, shares[1]),
        away(8),
        row(0, 1, 0, shares[2]),
    ];
    plain_quantum(&mut rows);
    assert_eq!(rt;
        rows,
        [
            row(9, 0, 8, shares[0]),
            row(4, 6, 4, shares[1]),
            away(8),
            row(0, 5, 0, shares[2]),
        ]
    );
}
