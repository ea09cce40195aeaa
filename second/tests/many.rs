//! Many queries at once, worked by hand.

use second::build::{words_of_names, Registered};
use second::many::{search_many, Came, Outcome, Queries};
use second::search::AnswerRow;

/// LANE under 10, LANES under 11, PLANE under 12.
fn lane() -> Vec<u32> {
    let name = |(id, name): (u32, &str)| Registered { id, name: name.into() };
    words_of_names(&[(10, "LANE"), (11, "LANES"), (12, "PLANE")].map(name))
}

/// The outcomes and rows of a call by Dice 8/13, as far as it came; what is lent beyond them keeps its contents.
fn asked(bytes: &str, ends: &[u32], allowance: u32, places: usize, room: usize) -> (Came, Vec<[u32; 3]>, Vec<[u32; 4]>) {
    let queries = Queries { measure: 1, p: 8, q: 13, allowance, bytes: bytes.into(), ends: ends.to_vec() };
    let (kept, kept_row) =
        (Outcome { number: 77, until: 77, touches: 77 }, AnswerRow { id: 7, shared: 7, size: 7, least: 7 });
    let (mut outcomes, mut rows) = (vec![kept; places], vec![kept_row; room]);
    let came = search_many(&lane(), &queries, &mut outcomes, &mut rows);
    assert!(outcomes[came.queries..].iter().all(|outcome| *outcome == kept));
    assert!(rows[came.rows..].iter().all(|row| *row == kept_row));
    let outcomes = outcomes[..came.queries].iter().map(|of| [of.number, of.until, of.touches]).collect();
    let rows = rows[..came.rows].iter().map(|row| [row.id, row.shared, row.size, row.least]).collect();
    (came, outcomes, rows)
}

// LANE touches 6 postings and tests at size 6 and 9 at size 7. LANES has least counts 4 for size 6 and 5 for size 7; it
// touches 1 signature posting and 3 tests at size 6, 3 signature postings and 4 tests at size 7.
const LANE: [[u32; 4]; 3] = [[10, 6, 6, 4], [11, 4, 7, 4], [12, 4, 7, 4]];
const LANES: [[u32; 4]; 2] = [[10, 4, 6, 4], [11, 7, 7, 5]];

#[test]
fn each_query_has_its_own_outcome() {
    let (came, outcomes, rows) = asked("LANEXYZLANES", &[4, 4, 7, 12], 15, 4, 5);
    assert_eq!(came, Came { number: 0, queries: 4, rows: 5 });
    assert_eq!(outcomes, [[0, 3, 15], [1, 3, 0], [0, 3, 0], [0, 5, 11]]);
    assert_eq!(rows, [&LANE[..], &LANES].concat());
}

#[test]
fn each_query_has_the_whole_allowance() {
    let (came, outcomes, rows) = asked("LANESLANELANES", &[5, 9, 14], 11, 9, 9);
    assert_eq!(came, Came { number: 0, queries: 3, rows: 4 });
    assert_eq!(outcomes, [[0, 2, 11], [7, 2, 11], [0, 4, 11]]);
    assert_eq!(rows, [LANES, LANES].concat());
}

#[test]
fn it_comes_as_far_as_there_is_room() {
    for (places, room, queries, rows) in [(3, 5, 3, 3), (9, 4, 3, 3), (9, 3, 3, 3), (9, 2, 0, 0), (1, 9, 1, 3), (0, 9, 0, 0)] {
        let (came, outcomes, found) = asked("LANEXYZLANES", &[4, 4, 7, 12], 15, places, room);
        assert_eq!(came, Came { number: 8, queries, rows }, "{places} places, {room} rows");
        assert_eq!(outcomes, [[0, 3, 15], [1, 3, 0], [0, 3, 0]][..queries]);
        assert_eq!(found, LANE[..rows]);
    }
    // What has no rows needs no room; and where nothing is asked, nothing is needed.
    assert_eq!(asked("XYZ", &[0, 3], 15, 2, 0).0, Came { number: 0, queries: 2, rows: 0 });
    assert_eq!(asked("XYZ", &[], 15, 0, 0).0, Came { number: 0, queries: 0, rows: 0 });
}

#[test]
fn a_query_that_does_not_lie_in_the_bytes() {
    let (came, outcomes, rows) = asked("LANEXYZLANES", &[4, 3, 13, u32::MAX, 7, 12], 15, 6, 5);
    assert_eq!(came, Came { number: 0, queries: 6, rows: 5 });
    assert_eq!(outcomes, [[0, 3, 15], [11, 3, 0], [11, 3, 0], [11, 3, 0], [11, 3, 0], [0, 5, 11]]);
    assert_eq!(rows, [&LANE[..], &LANES].concat());
}
