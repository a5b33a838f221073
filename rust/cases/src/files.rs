//! The files that are tried, family by family: good ones in every mixture, and what can be wrong with one.
use crate::model::{END, EVENT, FRAGMENT, MOST, ROOM, SIZE};
use crate::random::Random;

/// The names of the families.
pub const FAMILIES: [&str; 12] =
    ["example", "good", "cut", "kinds", "records", "bytes after", "sizes", "limits", "changes", "random", "long", "rooms"];

/// Whether a family is the same at every seed.
pub fn is_fixed(family: usize) -> bool {
    ["example", "sizes", "limits", "changes"].contains(&FAMILIES[family])
}

/// A file, its family, and the room that it is read into: so many costs, so many mask bytes.
#[derive(Debug, Clone)]
pub struct Drawn {
    pub family: usize,
    pub bytes: Vec<u8>,
    pub room: (usize, usize),
}

/// One record's bytes.
pub type Piece = Vec<u8>;

pub fn size(n: u16, window: u32) -> Piece {
    [&[SIZE][..], &n.to_le_bytes(), &window.to_le_bytes()].concat()
}

pub fn fragment(hut: u16, area: u16, clock: u32) -> Piece {
    [&[FRAGMENT][..], &hut.to_le_bytes(), &area.to_le_bytes(), &clock.to_le_bytes()].concat()
}

pub fn event(area: u16, clock: u32) -> Piece {
    [&[EVENT][..], &area.to_le_bytes(), &clock.to_le_bytes()].concat()
}

pub fn end() -> Piece {
    vec![END]
}

/// The whole example of the rules, as they print it.
#[rustfmt::skip]
pub const EXAMPLE: [u8; 40] = [
    0x01, 0x02, 0x00, 0xE8, 0x03, 0x00, 0x00, 0x02, 0x07, 0x00, 0x03, 0x00, 0x88, 0x13, 0x00, 0x00, 0x02, 0x09, 0x00, 0x03,
    0x00, 0x18, 0x15, 0x00, 0x00, 0x03, 0x03, 0x00, 0xB4, 0x14, 0x00, 0x00, 0x03, 0x03, 0x00, 0x0C, 0x17, 0x00, 0x00, 0x04,
];

/// The example in records.
fn example() -> Vec<Piece> {
    vec![size(2, 1000), fragment(7, 3, 5000), fragment(9, 3, 5400), event(3, 5300), event(3, 5900), end()]
}

const WINDOWS: [u32; 5] = [0, 999_999_999, 1_000_000_000, 1_000_000_001, u32::MAX];
const KINDS: [u8; 7] = [0, 1, 2, 3, 4, 5, 255];

/// Puts n fragments and n events in the order that the bits of `mixture` say: a set bit takes a fragment.
fn mixed(fragments: Vec<Piece>, events: Vec<Piece>, takes_fragment: impl Iterator<Item = bool>) -> Vec<Piece> {
    let (mut fragments, mut events) = (fragments.into_iter(), events.into_iter());
    takes_fragment.map(|fragment| if fragment { fragments.next() } else { events.next() }.unwrap()).collect()
}

/// A clock away from another by about the window, within the range of clocks.
fn near(random: &mut Random, clock: u32, window: u32) -> u32 {
    let by = random.pick(&[0, 1, window / 3, window / 2, window.saturating_sub(1), window, window, window.saturating_add(1)]);
    let by = if random.once_in(3) { random.below(window as usize + 1) as u32 } else { by };
    if random.once_in(2) {
        clock.saturating_add(by)
    } else {
        clock.saturating_sub(by)
    }
}

/// Fragments and events of a good file with this window: few areas, and most clocks about the window apart. Half of the crowds
/// have a pairing: each event is drawn within the window of a fragment of its area.
fn crowd(random: &mut Random, n: usize, window: u32) -> (Vec<Piece>, Vec<Piece>) {
    let has_pairing = random.once_in(2);
    let areas: Vec<u16> = (0..random.pick(&[1, 1, 1, 2, 3, 8])).map(|_| random.pick(&[0, 1, 2, 3, 256, 65_535])).collect();
    let middle = random.pick(&[0, 5000, 2_000_000_000, u32::MAX, 3_000_000_000]);
    let (mut fragments, mut events) = (vec![], vec![]);
    for _ in 0..n {
        let (area, clock) = (random.pick(&areas), near(random, middle, window / 2));
        fragments.push(fragment(random.next() as u16, area, clock));
        let (other_area, any, close) = (random.pick(&areas), random.next() as u32, near(random, clock, window));
        events.push(match random.below(if has_pairing { 1 } else { 12 }) {
            0 if close.abs_diff(clock) > window => event(area, clock),
            1..=3 => event(other_area, close),
            4 => event(area, any),
            _ => event(area, close),
        });
    }
    random.shuffle(&mut events);
    (fragments, events)
}

/// A good file of n rows: a size, fragments and events in some mixture, an end.
pub fn good(random: &mut Random, n: usize) -> Vec<Piece> {
    let drawn = random.below(1_000_000_001) as u32;
    let window = random.pick(&[0, 1, 10, 1000, 1000, 100_000, 999_999_999, 1_000_000_000, drawn]);
    let (fragments, events) = crowd(random, n, window);
    let mut order: Vec<bool> = match random.below(4) {
        0 => (0..2 * n).map(|i| i < n).collect(),
        1 => (0..2 * n).map(|i| i >= n).collect(),
        _ => (0..2 * n).map(|i| i % 2 == 0).collect(),
    };
    if random.once_in(2) {
        random.shuffle(&mut order);
    }
    [vec![size(n as u16, window)], mixed(fragments, events, order.into_iter()), vec![end()]].concat()
}

/// Every order of n fragments and n events.
fn mixtures(random: &mut Random, n: usize) -> Vec<Vec<u8>> {
    let orders = (0..1u32 << (2 * n)).filter(|order| order.count_ones() as usize == n);
    let mut all = vec![];
    for order in orders {
        let (fragments, events) = crowd(random, n, 1000);
        let middle = mixed(fragments, events, (0..2 * n).map(|i| order >> i & 1 == 1));
        all.push([vec![size(n as u16, 1000)], middle, vec![end()]].concat().concat());
    }
    all
}

/// The first bytes of a file, of every length below its own.
fn cuts(file: &[u8]) -> Vec<Vec<u8>> {
    (0..file.len()).map(|length| file[..length].to_vec()).collect()
}

/// Every kind byte replaced.
fn kinds(records: &[Piece]) -> Vec<Vec<u8>> {
    let mut all = vec![];
    for at in 0..records.len() {
        for kind in KINDS {
            let mut changed = records.to_vec();
            changed[at][0] = kind;
            all.push(changed.concat());
        }
    }
    all
}

/// Records doubled, dropped and swapped; others put between them; an end too early, with and without bytes behind it.
fn reordered(records: &[Piece]) -> Vec<Vec<u8>> {
    let others = [size(1, 0), size(0, 5), size(65, u32::MAX), fragment(1, 3, 5000), event(3, 5000), end()];
    let mut all = vec![];
    for at in 0..=records.len() {
        let (before, behind) = records.split_at(at);
        for other in &others {
            all.push([before.concat(), other.clone(), behind.concat()].concat());
            all.push([before.concat(), other.clone()].concat());
            all.push([before.concat(), other[..other.len() - 1].to_vec()].concat());
        }
        if at < records.len() {
            all.push([before.concat(), behind[1..].concat()].concat());
            all.push([before.concat(), behind[0].clone(), behind.concat()].concat());
        }
        for other in at + 1..records.len() {
            let mut swapped = records.to_vec();
            swapped.swap(at, other);
            all.push(swapped.concat());
        }
    }
    all
}

fn bytes_after(file: &[u8]) -> Vec<Vec<u8>> {
    let tails = KINDS.iter().map(|&kind| vec![kind]).chain([vec![0; 9], vec![4; 5], file.to_vec()]);
    tails.map(|tail| [file, &tail].concat()).collect()
}

/// Sizes at and past their limits, alone and with the records of the example behind them.
fn sizes() -> Vec<Vec<u8>> {
    let mut all = vec![];
    for n in [0, 1, 2, 63, 64, 65, 255, 256, 258, 320, 65_535] {
        for window in WINDOWS {
            all.push(size(n, window));
            all.push([size(n, window), example()[1..].concat()].concat());
        }
    }
    all
}

/// Files of one row and one column: clocks apart by the window and by one more, at both ends of the range; areas equal and not.
fn limits() -> Vec<Vec<u8>> {
    const MAX: u32 = u32::MAX;
    let mut all = vec![];
    for w in [0, 1, 999_999_999, 1_000_000_000] {
        let clocks = [(0, w), (w, 0), (0, w + 1), (w + 1, 0), (MAX, MAX - w), (MAX - w, MAX), (MAX, MAX - w - 1), (MAX - w - 1, MAX)];
        for (row, column) in clocks.into_iter().chain([(0, MAX), (MAX, 0), (0, 0), (MAX, MAX)]) {
            for (row_area, column_area) in [(0, 0), (65_535, 65_535), (0, 1), (1, 256), (0, 65_535)] {
                let hut = row_area ^ 0xa5c3;
                all.push([size(1, w), fragment(hut, row_area, row), event(column_area, column), end()].concat());
            }
        }
    }
    all
}

/// Single-byte changes of the example: all, or some of each byte.
fn changes(few: bool) -> Vec<Vec<u8>> {
    let mut all = vec![];
    for at in 0..EXAMPLE.len() {
        let old = EXAMPLE[at];
        let some = [0, 1, 2, 3, 4, 5, 65, 255, old ^ 0x80, old.wrapping_add(1), old.wrapping_sub(1)];
        for new in (0..=255u8).filter(|new| *new != old && (!few || some.contains(new))) {
            let mut file = EXAMPLE;
            file[at] = new;
            all.push(file.to_vec());
        }
    }
    all
}

/// A random record, mostly of a small file.
fn piece(random: &mut Random) -> Piece {
    let [a, b, c] = [0; 3].map(|_: u32| random.next() as u32);
    match random.below(20) {
        0 => size(random.pick(&[0, 1, 2, 64, 65]), random.pick(&[0, 1000, 1_000_000_001, a])),
        1..=8 => fragment(a as u16, b as u16 % 2, c % 2000),
        9..=17 => event(b as u16 % 2, c % 2000),
        18 => vec![a as u8],
        _ => end(),
    }
}

/// Small random files: bytes of few values or of all, and random records behind a size, some of them cut.
fn small(random: &mut Random) -> Vec<u8> {
    let length = random.below(25);
    match random.below(6) {
        0 => (0..length).map(|_| random.next() as u8).collect(),
        1 => (0..length).map(|_| random.below(6) as u8).collect(),
        _ => {
            let n = random.pick(&[1, 1, 2, 2, 3]);
            let mut file = size(n, random.pick(&[0, 500, 1000]));
            (0..random.below(3 * n as usize + 1)).for_each(|_| file.extend(piece(random)));
            if random.once_in(3) {
                file.push(END);
            }
            file.truncate(if random.once_in(5) { random.below(file.len() + 1) } else { file.len() });
            file
        }
    }
}

/// Files of more than 4,096 bytes, and one of exactly so many.
fn long(random: &mut Random) -> Vec<Vec<u8>> {
    let most = good(random, MOST);
    let grown = |length: usize, byte: u8| {
        let mut file = most.concat();
        file.resize(length, byte);
        file
    };
    let endless: Vec<u8> = [vec![size(64, 1000)], vec![event(1, 5); 700]].concat().concat();
    // The end's place is taken by one more event; the end comes behind 4,096 bytes.
    let late = [most[..most.len() - 1].concat(), vec![event(1, 5); 500].concat(), end()].concat();
    vec![grown(4096, 0), grown(4097, 4), grown(5000, 1), endless, late]
}

/// Rooms that are not 4,096 by 4,096.
const WRONG_ROOMS: [(usize, usize); 9] =
    [(0, 0), (ROOM - 1, ROOM), (ROOM, ROOM - 1), (ROOM + 1, ROOM), (ROOM, ROOM + 1), (0, ROOM), (ROOM, 0), (4, 4), (ROOM + 9, ROOM + 9)];

/// All files of a seed. `few`: a choice of them that is small enough to be stored.
pub fn all(seed: u64, few: bool) -> Vec<Drawn> {
    let random = &mut Random::of(seed, 0);
    let [one, three, five] = [1, 3, 5].map(|n| good(random, n));
    let mut families: [Vec<Vec<u8>>; FAMILIES.len()] = [const { vec![] }; FAMILIES.len()];
    families[0] = vec![EXAMPLE.to_vec(), example().concat(), vec![]];

    let again = if few { 160 } else { 800 };
    families[1] = (1..=MOST).chain((0..again).map(|i| 1 + i % 8)).map(|n| good(random, n).concat()).collect();
    (1..=3).for_each(|n| families[1].extend(mixtures(random, n)));

    let second_size = [&example()[..3], &[size(2, 1000)], &example()[3..]].concat().concat();
    let one_more = [&example()[..5], &[fragment(1, 3, 5200)], &example()[5..]].concat().concat();
    let first_size_missing = example()[1..].concat();
    for file in [EXAMPLE.to_vec(), first_size_missing, second_size, one_more, three.concat()] {
        families[2].extend(cuts(&file));
    }
    if !few {
        families[2].extend(cuts(&good(random, MOST).concat()));
    }
    for records in [&example(), &one, &three, &five] {
        families[3].extend(kinds(records));
        families[5].extend(bytes_after(&records.concat()));
    }
    for records in [&example(), &one, &three, &five].into_iter().take(if few { 2 } else { 4 }) {
        families[4].extend(reordered(records));
    }
    families[6] = sizes();
    families[7] = limits();
    families[8] = changes(few);
    families[9] = (0..if few { 500 } else { 20_000 }).map(|_| small(random)).collect();
    families[10] = long(random);

    let right = |(family, files): (usize, Vec<Vec<u8>>)| files.into_iter().map(move |bytes| Drawn { family, bytes, room: (ROOM, ROOM) });
    let mut all: Vec<Drawn> = families.into_iter().enumerate().flat_map(right).collect();
    for bytes in [EXAMPLE.to_vec(), vec![], vec![9, 9], three.concat(), good(random, MOST).concat()] {
        all.extend(WRONG_ROOMS.iter().map(|&room| Drawn { family: 11, bytes: bytes.clone(), room }));
    }
    all
}
