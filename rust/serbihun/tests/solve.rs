//! The solver: pairings with their prices, refusals in their order, budgets.
use serbihun::{enough, lines, solve, solve_by_steps, Answer, Room};

const COSTS: [i32; 9] = [4, -1, 3, 2, 0, 5, 3, 2, -2];

/// Both solvers, in the buffers of three rows: they must agree.
fn solved(n: usize, costs: &[i32], mask: &[u8]) -> (Answer, Room) {
    let (mut room, mut by_steps) = (Room::new(), Room::new());
    let answer = solve(n, costs, mask, enough(n), room.lend(3));
    assert_eq!(
        solve_by_steps(n, costs, mask, enough(n), by_steps.lend(3)),
        answer
    );
    assert_eq!(by_steps, room);
    (answer, room)
}

#[test]
fn a_pairing_with_its_prices() {
    let (answer, room) = solved(3, &COSTS, &[1; 9]);
    assert!(
        matches!(answer, Answer::Paired { total: -1, .. }),
        "{answer:?}"
    );
    assert_eq!(room.columns[..3], [1, 0, 2]);
    for (cell, cost) in COSTS.into_iter().enumerate() {
        let prices = room.row_prices[cell / 3] + room.column_prices[cell % 3];
        assert_eq!(prices + room.working[cell], i64::from(cost));
    }
    assert_eq!(
        room.row_prices
            .iter()
            .chain(&room.column_prices)
            .sum::<i64>(),
        -1
    );
}

#[test]
fn refusals_in_their_order() {
    assert_eq!(solved(0, &COSTS, &[7; 9]).0, Answer::Empty);
    assert_eq!(solved(65, &COSTS, &[7; 9]).0, Answer::TooLarge);
    assert_eq!(solved(3, &COSTS[1..], &[7; 9]).0, Answer::WrongLength);
    assert_eq!(
        solved(3, &[i32::MIN; 9], &[1, 1, 1, 1, 2, 1, 1, 3, 1]).0,
        Answer::BadMask { place: 4 }
    );
    assert_eq!(
        solved(3, &[i32::MIN; 9], &[0, 0, 1, 1, 1, 1, 1, 1, 1]).0,
        Answer::BadCost { place: 2 }
    );
}

#[test]
fn a_refusal_writes_nothing() {
    let (answer, room) = solved(3, &[i32::MAX; 9], &[1; 9]);
    assert_eq!((answer, room), (Answer::BadCost { place: 0 }, Room::new()));
}

#[test]
fn costs_at_their_bounds() {
    let mut room = Room::new();
    for cost in [-1_000_000_000, 1_000_000_000] {
        let answer = solve(1, &[cost], &[1], enough(1), room.lend(1));
        assert!(
            matches!(answer, Answer::Paired { total, .. } if total == i64::from(cost)),
            "{answer:?}"
        );
    }
}

#[test]
fn a_forbidden_column() {
    let (answer, _) = solved(3, &COSTS, &[0, 1, 1, 0, 1, 1, 0, 1, 1]);
    let Answer::NoPairing { rows, columns, .. } = answer else {
        panic!("{answer:?}")
    };
    assert_eq!(lines(rows).collect::<Vec<_>>(), [0, 1, 2]);
    assert_eq!(lines(columns).collect::<Vec<_>>(), [0]);
}

#[test]
fn no_budget() {
    let mut room = Room::new();
    let answer = solve(2, &[1, 2, 1, 3], &[1; 4], 0, room.lend(2));
    assert!(
        matches!(answer, Answer::Unfinished { counts } if counts.adjustments == 0),
        "{answer:?}"
    );
    let answer = solve(2, &[1, 2, 1, 3], &[1; 4], enough(2), room.lend(2));
    assert!(
        matches!(answer, Answer::Paired { total: 3, .. }),
        "{answer:?}"
    );
}

#[test]
fn sixty_four_rows() {
    let costs: Vec<i32> = (0..64 * 64)
        .map(|cell| if cell / 64 + cell % 64 == 63 { -1 } else { 1 })
        .collect();
    let mut room = Room::new();
    let answer = solve(64, &costs, &[1; 64 * 64], enough(64), room.lend(64));
    assert!(
        matches!(answer, Answer::Paired { total: -64, .. }),
        "{answer:?}"
    );
    assert!(room.columns.iter().rev().copied().eq(0..64));
}
