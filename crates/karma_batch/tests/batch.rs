use super::*;
use karma_rule::{Share, plain_quantum};

fn row(demand: u64, credits: u64, share: Share) -> Row
    ensures { result ≡ record {
      demand = demand;
      credits = credits;
      given = 0;
      fair = share.fair;
      floor = share.floor;
      present = true;
    } }
{
    Row {
        demand,
        credits,
        given: 0,
        fair: share.fair,
        floor: share.floor,
        present: true,
    }
}

#[test]
fn two_donors(rt: HostRuntime) {
    let share = Share { fair: 4, floor: 4 };
    let mut rows = [row(12, 3, share), row(0, 3, share), row(0, 3, share)];
    batch_quantum(&mut rows);
    assert_eq!(rt; rows.map(|row| row.given), [7, 0, 0]);
    assert_eq!(rt; rows.map(|row| row.credits), [0, 5, 4]);
}

#[test]
fn billions_of_loans(rt: HostRuntime) {
    let credits = 1_099_511_627_776;
    let share = Share {
        fair: 4_294_967_296,
        floor: 0,
    };
    let mut rows = [
        row(17_179_869_184, credits, share),
        row(0, credits, share),
        row(0, credits, share),
        row(0, credits, share),
    ];
    batch_quantum(&mut rows);
    assert_eq!(rt; rows.map(|row| row.given), [17_179_869_184, 0, 0, 0]);
    assert_eq!(rt; rows[0].credits, 1_086_626_725_888);
    assert_eq!(rt; rows[1].credits, 1_103_806_595_072);
    assert_eq!(rt; rows[2].credits, 1_103_806_595_072);
    assert_eq!(rt; rows[3].credits, 1_103_806_595_072);
}

/// A row with a share of its own, and one in eight away.
fn small_row(seed: u32) -> Row
    ensures { IsReady result }
{
    let demand = u64::from(seed % 13);
    if seed / 512 % 8 == 0 {
        return Row {
            demand,
            credits: 0,
            given: 0,
            fair: 0,
            floor: 0,
            present: false,
        };
    }
    let floor = u64::from(seed / 16 % 5);
    let share = Share {
        fair: floor + u64::from(seed / 32 % 5),
        floor,
    };
    row(demand, u64::from(seed / 64 % 11), share)
}

fn small_rows(seed: u32) -> [Row; 4]
    ensures { CanMakeQuantum result }
{
    [
        small_row(seed >> 4),
        small_row(seed >> 8),
        small_row(seed >> 12),
        small_row(seed >> 16),
    ]
}

#[test]
fn as_loan_by_loan(rt: HostRuntime) {
    let mut seed = 1u32;
    for _ in 0..300 {
        seed = seed.wrapping_mul(1_664_525).wrapping_add(1_013_904_223);
        let mut batch = small_rows(seed);
        batch_quantum(&mut batch);
        let mut plain = small_rows(seed);
        plain_quantum(&mut plain);
        assert_eq!(rt; batch, plain);
    }
}
