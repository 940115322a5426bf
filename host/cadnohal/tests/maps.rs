//! What a map answers, refusals 8 and 9 too.

mod common;

use cadnohal::{AdjustError, Asked, ConstantHandle, ExpressionHandle, HandleMap, N};
use common::words;
use std::ops::Range;

fn map(text: &str) -> HandleMap<ExpressionHandle> {
    HandleMap::from_words(words(text))
}

#[test]
fn words_come_back() {
    let map = map("N 0 N 1 2");
    assert_eq!(map.words(), words("N 0 N 1 2"));
    assert_eq!((map.len(), map.is_empty()), (5, false));
    let empty = HandleMap::<ConstantHandle>::from_words(Vec::new());
    assert_eq!((empty.len(), empty.is_empty()), (0, true));
}

#[test]
fn lookup_is_never_refused() {
    let map = map("N 0 N 1 2");
    let get = |handle| map.get(ExpressionHandle(handle)).map(|new| new.0);
    assert_eq!(
        [0, 1, 2, 3, 4].map(get),
        [None, Some(0), None, Some(1), Some(2)]
    );
    assert_eq!([5, 6, N - 1, N].map(get), [None; 4]);
    assert_eq!(
        HandleMap::from_words(Vec::new()).get(ConstantHandle(0)),
        None
    );
}

#[test]
fn adjust_refuses_8_past_the_end_and_9_where_dropped() {
    let map = map("N 0 N 1 2");
    let adjust = |handle| map.adjust(ExpressionHandle(handle));
    assert_eq!(adjust(1), Ok(ExpressionHandle(0)));
    assert_eq!(adjust(3), Ok(ExpressionHandle(1)));
    assert_eq!(adjust(4), Ok(ExpressionHandle(2)));
    for handle in [0, 2] {
        let error = AdjustError {
            number: 9,
            asked: Asked::Handle(handle),
            length: 5,
        };
        assert_eq!(adjust(handle), Err(error));
    }
    for handle in [5, 6, N - 1, N] {
        let error = AdjustError {
            number: 8,
            asked: Asked::Handle(handle),
            length: 5,
        };
        assert_eq!(adjust(handle), Err(error));
    }
}

#[test]
fn ranges_are_judged_by_the_length_of_the_map() {
    let number = |text, start, end| {
        map(text)
            .adjust_range(start..end)
            .map_err(|error| error.number)
    };
    assert_eq!(number("N 0 N 1 2", 0, 5), Ok(0..3));
    assert_eq!(number("N 0 N 1 2", 2, 3), Ok(0..0));
    assert_eq!(number("N 0 N 1 2", 3, 4), Ok(1..2));
    assert_eq!(number("N 0 N 1 2", 3, 3), Ok(0..0));
    assert_eq!(number("N 0 N 1 2", 6, 6), Err(8));
    assert_eq!(number("N 0 N 1 2", 5, 6), Err(8));
    assert_eq!(number("N 0 N 1 2", 5, 4), Err(8));
    assert_eq!(number("N 0 N 1 2", 0, N), Err(8));
    assert_eq!(number("N 0 N 1 2", N, N), Err(8));
    assert_eq!(number("N 0 N 1 2", N, 0), Err(8));
    assert_eq!(number("", 0, 0), Ok(0..0));
    assert_eq!(number("", 1, 1), Err(8));
    assert_eq!(number("", 0, 1), Err(8));
}

#[test]
fn any_words_are_a_map() {
    // Values needn't rise, so a range may fall, and its end may be N.
    let fallen = Range { start: 5, end: 3 };
    assert_eq!(map("5 2").adjust_range(0..2), Ok(fallen));
    assert_eq!(map("7 4294967294").adjust_range(0..2), Ok(7..N));
    assert_eq!(
        map("7 4294967294").get(ExpressionHandle(1)),
        Some(ExpressionHandle(N - 1))
    );
}

#[test]
fn errors_read_well() {
    let adjust = |handle| {
        map("N 0")
            .adjust(ExpressionHandle(handle))
            .unwrap_err()
            .to_string()
    };
    let range = |start, end| map("N 0").adjust_range(start..end).unwrap_err().to_string();
    assert_eq!(adjust(0), "refusal 9: handle 0 was dropped");
    assert_eq!(
        adjust(2),
        "refusal 8: handle 2 isn't below the map's length 2"
    );
    assert_eq!(
        range(0, 3),
        "refusal 8: range 0..3 ends above the map's length 2"
    );
    assert_eq!(range(2, 1), "refusal 8: range 2..1 starts after its end");
}
