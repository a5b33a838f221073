//! Files whose number and place were worked out by hand from the rules, so that the model is held to something too.
use crate::files::{end, event, fragment, size, EXAMPLE};
use crate::model::*;

/// What is tried, the file, its number and its place.
pub type Settled = (&'static str, Vec<u8>, u32, usize);

pub fn all() -> Vec<Settled> {
    let (f, e) = (|| fragment(7, 3, 5000), || event(3, 5300));
    let after_size = |rest: Vec<u8>| [size(1, 10), rest].concat();
    let whole = || after_size([f(), e(), end()].concat());
    let cut = |mut file: Vec<u8>| {
        file.pop();
        file
    };
    vec![
        ("the whole example", EXAMPLE.to_vec(), ACCEPTED, 0),
        ("an empty file", vec![], FILE_ENDS, 0),
        ("a whole fragment first", f(), WRONG_SIZE_RECORD, 0),
        ("a whole event first", e(), WRONG_SIZE_RECORD, 0),
        ("an end first", end(), WRONG_SIZE_RECORD, 0),
        ("an end first, and bytes behind it", vec![END, 9, 9], WRONG_SIZE_RECORD, 0),
        ("a cut fragment first", cut(f()), FILE_ENDS, 0),
        ("a cut event first", cut(e()), FILE_ENDS, 0),
        ("a cut size first", cut(size(0, 0)), FILE_ENDS, 0),
        ("kind 0 first", vec![0], UNKNOWN_KIND, 0),
        ("kind 5 first, with bytes behind it", vec![5, 1, 1, 0, 0, 0, 0, 0], UNKNOWN_KIND, 0),
        ("kind 255 after the size", after_size(vec![255]), UNKNOWN_KIND, 7),
        ("only a size", after_size(vec![]), FILE_ENDS, 7),
        ("a second size", after_size(size(1, 10)), WRONG_SIZE_RECORD, 7),
        ("a second size that is bad", after_size(size(0, u32::MAX)), WRONG_SIZE_RECORD, 7),
        ("a second size that is cut", after_size(cut(size(1, 10))), FILE_ENDS, 7),
        ("n and window are bad", size(65, 1_000_000_001), BAD_SIZE, 0),
        ("n is 0", [size(0, 10), end()].concat(), BAD_SIZE, 0),
        ("the window is bad", [size(1, 1_000_000_001), f(), e(), end()].concat(), BAD_SIZE, 0),
        ("the greatest window", [size(1, 1_000_000_000), f(), e(), end()].concat(), ACCEPTED, 0),
        ("one fragment too many", after_size([f(), f(), e(), end()].concat()), WRONG_COUNT, 16),
        ("one event too many, unknown kinds behind it", after_size([e(), e(), vec![9, 9]].concat()), WRONG_COUNT, 14),
        ("one fragment too many, which is cut", after_size([f(), cut(f())].concat()), FILE_ENDS, 16),
        ("an end at once", after_size(end()), WRONG_COUNT, 7),
        ("an end without an event", after_size([f(), end()].concat()), WRONG_COUNT, 16),
        ("an end without a fragment, and bytes behind it", after_size([e(), end(), vec![9]].concat()), WRONG_COUNT, 14),
        ("all records but no end", cut(whole()), FILE_ENDS, 23),
        ("a byte after the end", [whole(), vec![0]].concat(), BYTES_AFTER, 24),
        ("a second end", [whole(), end()].concat(), BYTES_AFTER, 24),
        ("the file twice", [whole(), whole()].concat(), BYTES_AFTER, 24),
    ]
}
