//! The case reader, and a case paired in one call.
use serbihun::{
    hut, pair_case, read_case, record, Case, CaseRefusal, CaseRoom, NoBody, Pairs, ROOM,
};

const SIZE: [u8; 7] = [1, 2, 0, 0xE8, 3, 0, 0];
const ROW_7: [u8; 9] = [2, 7, 0, 3, 0, 0x88, 0x13, 0, 0];
const ROW_9: [u8; 9] = [2, 9, 0, 3, 0, 0x18, 0x15, 0, 0];
const COLUMN_0: [u8; 7] = [3, 3, 0, 0xB4, 0x14, 0, 0];
const COLUMN_1: [u8; 7] = [3, 3, 0, 0x0C, 0x17, 0, 0];
const END: [u8; 1] = [4];

fn example() -> Vec<u8> {
    [&SIZE[..], &ROW_7, &ROW_9, &COLUMN_0, &COLUMN_1, &END].concat()
}

/// What is said of a file, and the costs and mask afterwards, all 77 before.
fn read(file: &[u8]) -> (Result<Case, CaseRefusal>, Vec<i32>, Vec<u8>) {
    let (mut costs, mut mask) = (vec![77; ROOM], vec![77; ROOM]);
    let said = read_case(file, &mut costs, &mut mask);
    (said, costs, mask)
}

fn refused(file: &[u8]) -> CaseRefusal {
    let (said, costs, mask) = read(file);
    assert_eq!((costs, mask), (vec![77; ROOM], vec![77; ROOM]));
    assert_eq!(hut(file, 0), None);
    said.expect_err("a refusal")
}

#[test]
fn a_case() {
    let (said, costs, mask) = read(&example());
    assert_eq!(said, Ok(Case { n: 2, window: 1000 }));
    assert_eq!(costs[..5], [300, 900, 100, 500, 77]);
    assert_eq!(mask[..5], [1, 1, 1, 1, 77]);
    assert!(costs[4..].iter().all(|&cost| cost == 77));
    assert!(mask[4..].iter().all(|&byte| byte == 77));
}

#[test]
fn forbidden_cells_cost_nothing() {
    let mut other_area = example();
    other_area[26] = 4;
    let (_, costs, mask) = read(&other_area);
    assert_eq!(
        (&costs[..4], &mask[..4]),
        (&[0, 900, 0, 500][..], &[0, 1, 0, 1][..])
    );

    // the window is 500: 500 apart is allowed
    let mut narrow = example();
    narrow[3..5].copy_from_slice(&500u16.to_le_bytes());
    let (_, costs, mask) = read(&narrow);
    assert_eq!(
        (&costs[..4], &mask[..4]),
        (&[300, 0, 100, 500][..], &[1, 0, 1, 1][..])
    );
}

#[test]
fn huts() {
    let file = example();
    assert_eq!(
        [0, 1, 2, usize::MAX].map(|row| hut(&file, row)),
        [Some(7), Some(9), None, None]
    );
    let mut highest = file;
    highest[8..10].fill(0xFF);
    assert_eq!(hut(&highest, 0), Some(65_535));
}

#[test]
fn refusals() {
    assert_eq!(refused(&[]), CaseRefusal::Cut { place: 0 });
    assert_eq!(refused(&[2]), CaseRefusal::Cut { place: 0 });
    assert_eq!(refused(&example()[..39]), CaseRefusal::Cut { place: 39 });
    assert_eq!(refused(&[0]), CaseRefusal::UnknownKind { place: 0 });
    assert_eq!(refused(&END), CaseRefusal::WrongOrder { place: 0 });
    assert_eq!(
        refused(&[SIZE, SIZE].concat()),
        CaseRefusal::WrongOrder { place: 7 }
    );
    assert_eq!(
        refused(&[&SIZE[..], &END].concat()),
        CaseRefusal::WrongCount { place: 7 }
    );
    let third = [&SIZE[..], &ROW_7, &ROW_9, &ROW_7].concat();
    assert_eq!(refused(&third), CaseRefusal::WrongCount { place: 25 });
    assert_eq!(
        refused(&[1, 0, 0, 0, 0, 0, 0]),
        CaseRefusal::BadSize { place: 0 }
    );
    assert_eq!(
        refused(&[1, 65, 0, 0, 0, 0, 0]),
        CaseRefusal::BadSize { place: 0 }
    );
    // a window of 1,000,000,001
    assert_eq!(
        refused(&[1, 2, 0, 0x01, 0xCA, 0x9A, 0x3B]),
        CaseRefusal::BadSize { place: 0 }
    );
    assert_eq!(
        refused(&[&example()[..], &[0]].concat()),
        CaseRefusal::BytesAfter { place: 40 }
    );
}

#[test]
fn other_room() {
    let file = example();
    for (costs, mask) in [(ROOM - 1, ROOM), (ROOM, ROOM + 1), (0, 0)] {
        let said = read_case(&file, &mut vec![0; costs], &mut vec![0; mask]);
        assert_eq!(said, Err(CaseRefusal::WrongRoom));
    }
}

#[test]
fn refusals_in_words() {
    assert_eq!(CaseRefusal::WrongRoom.to_string(), "REFUSED 20 AT 0");
    assert_eq!(
        refused(&[&example()[..], &[0]].concat()).to_string(),
        "REFUSED 26 AT 40"
    );
}

#[test]
fn records_of_the_file() {
    let file = example();
    let mut at = 0;
    for length in [6, 8, 8, 6, 6, 0] {
        let body = record(&file, at).expect("a record");
        assert_eq!(body, &file[at + 1..at + 1 + length]);
        at += 1 + length;
    }
    assert_eq!(record(&file, at), Err(NoBody::Cut));
    assert_eq!(record(&file, usize::MAX), Err(NoBody::Cut));
    assert_eq!(record(&file[..38], 32), Err(NoBody::Cut));
    assert_eq!(record(&file, 8), Err(NoBody::UnknownKind));
}

#[test]
fn the_largest_case() {
    let mut file = vec![1, 64, 0, 1, 0, 0, 0];
    for hut in 0..64 {
        file.extend([2, hut, 1, 3, 0, hut, 0, 0, 0]);
    }
    for clock in 0..64 {
        file.extend([3, 3, 0, clock, 0, 0, 0]);
    }
    file.push(4);
    assert_eq!(file.len(), 1_032);
    let (said, costs, mask) = read(&file);
    assert_eq!(said, Ok(Case { n: 64, window: 1 }));
    for cell in 0..ROOM {
        let apart = (cell / 64).abs_diff(cell % 64);
        assert_eq!(mask[cell], u8::from(apart < 2));
        assert_eq!(costs[cell], i32::from(apart == 1));
    }
    assert_eq!(hut(&file, 63), Some(256 + 63));
}

#[test]
fn paired_at_once() {
    let mut room = CaseRoom::new();
    let paired = Pairs::Paired {
        n: 2,
        window: 1000,
        total: 800,
    };
    assert_eq!(pair_case(&example(), &mut room), Ok(paired));
    assert_eq!(room.huts[..3], [7, 9, 0]);
    assert_eq!(room.solved.columns[..3], [0, 1, 0]);
    assert_eq!(room.costs[..5], [300, 900, 100, 500, 0]);
    for cell in 0..4 {
        let prices = room.solved.row_prices[cell / 2] + room.solved.column_prices[cell % 2];
        assert_eq!(
            prices + room.solved.working[cell],
            i64::from(room.costs[cell])
        );
    }
}

#[test]
fn no_pairing_at_once() {
    let mut other_area = example();
    other_area[26] = 4;
    let blocked = Pairs::NoPairing {
        n: 2,
        window: 1000,
        rows: 3,
        columns: 1,
    };
    assert_eq!(pair_case(&other_area, &mut CaseRoom::new()), Ok(blocked));
}

#[test]
fn a_refusal_touches_nothing() {
    let mut room = CaseRoom::new();
    let refusal = Err(CaseRefusal::Cut { place: 39 });
    assert_eq!(pair_case(&example()[..39], &mut room), refusal);
    assert_eq!(room, CaseRoom::new());
}
