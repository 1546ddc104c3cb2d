//! The questions that document 01 tries by hand (case 11 as document 02, c, has it, and case 12 as d has it), and the
//! smallest example of each number.

mod common;

use common::calls;
use common::examine::{examine, Seen};
use common::prng::Prng;
use common::{hex, LETTERS};

const LARGE: u64 = 1_000_000;

/// A theorem with its counts, its width and its derivation.
fn theorem(question: &str, reductions: u64, closings: u64, width: u64, derivation: &str) {
    let (question, derivation) = (hex(question), hex(derivation));
    assert_eq!(calls::decide(&question, LARGE), (0, [0, 0, reductions, closings]));
    assert_eq!(calls::width(&question).0, 0);
    assert_eq!(calls::width(&question).1[0], width);
    let length = derivation.len() as u64;
    assert_eq!(calls::derive(&question, LARGE, 4096), (0, [length, reductions, closings], derivation.clone()));
    assert_eq!(calls::check(&question, &derivation), (0, [0]));
    assert_eq!(calls::states(&question, 0), (0, [0], vec![]));
    everything(&question);
}

fn refuted(question: &str, state: u64, reductions: u64, closings: u64, width: u64) {
    let question = hex(question);
    assert_eq!(calls::decide(&question, LARGE), (0, [1, state, reductions, closings]));
    assert_eq!(calls::width(&question).0, 0);
    assert_eq!(calls::width(&question).1[0], width);
    assert_eq!(calls::derive(&question, LARGE, 4096), (10, [state, reductions, closings], vec![]));
    everything(&question);
}

/// The same question against the other programs.
fn everything(question: &[u8]) {
    examine(question, &mut Prng::new(0), 10_000, &mut Seen::default());
}

fn refused(question: &[u8], number: u32, place: u64) {
    assert_eq!(calls::width(question), (number, [place, 0]));
    everything(question);
}

#[test]
fn case_1_empty_sides() {
    refuted("10 00 20 00", 0, 0, 0, 1);
}

#[test]
fn case_2_a_letter_on_both_sides() {
    theorem("10 01 01 00 20 01 01 00", 0, 1, 1, "41 00");
}

#[test]
fn case_3_two_letters() {
    refuted("10 01 01 00 20 01 01 01", 1, 0, 0, 1);
}

#[test]
fn case_4_principia_2_45() {
    theorem("10 01 02 04 01 00 01 01 20 01 02 01 00", 3, 1, 1, "52 00 62 00 64 00 41 00");
}

#[test]
fn case_5_principia_4_21() {
    theorem("10 00 20 01 05 03 02 01 00 02 01 01 06 01 00 01 01", 5, 2, 2, "65 00 53 00 52 00 52 00 66 00 41 00 41 01");
}

#[test]
fn case_6_or_on_the_left() {
    refuted("10 01 04 01 00 01 01 20 01 01 00", 2, 1, 1, 2);
}

#[test]
fn case_7_equiv_on_the_right() {
    theorem("10 00 20 01 06 01 00 01 00", 1, 2, 2, "66 00 41 00 41 00");
}

#[test]
fn case_8_equiv_on_the_left() {
    refuted("10 01 06 01 00 01 00 20 00", 1, 1, 0, 2);
}

const CASE_9: &str = "10 00 20 01 05 03 05 01 00 04 01 01 01 02 05 01 02 01 03 05 03 01 00 01 01 01 03";

#[test]
fn case_9_the_failing_example() {
    refuted(CASE_9, 3, 8, 1, 6);
}

#[test]
fn case_10_a_budget_of_7_and_of_8() {
    let question = hex(CASE_9);
    assert_eq!(calls::decide(&question, 7), (9, [0, 0, 7, 1]));
    assert_eq!(calls::derive(&question, 7, 4096), (9, [7, 1, 0], vec![]));
    assert_eq!(calls::decide(&question, 8), (0, [1, 3, 8, 1]));
}

#[test]
fn case_11_and_on_both_sides() {
    theorem("10 01 03 01 00 01 01 20 01 03 01 00 01 01", 0, 1, 2, "42 00 00");
    // A derivation that takes the two apart passes all the same.
    let question = hex("10 01 03 01 00 01 01 20 01 03 01 00 01 01");
    assert_eq!(calls::check(&question, &hex("53 00 63 00 41 00 41 01")), (0, [0]));
}

#[test]
fn case_12_the_limits() {
    // Letter 63 is read, 64 gives 5.
    refuted("10 01 01 3f 20 00", 1 << 63, 0, 0, 1);
    refuted("10 00 20 01 01 3f", 0, 0, 0, 1);
    theorem("10 01 01 3f 20 01 01 3f", 0, 1, 1, "41 3f");
    refused(&hex("10 01 01 40 20 00"), 5, 3);
    refused(&hex("10 00 20 01 01 40"), 5, 5);
    // Letters 31 and 32 are read like any other.
    refuted("10 01 01 1f 20 01 01 20", 1 << 31, 0, 0, 1);
    refuted("10 01 01 20 20 01 01 1f", 1 << 32, 0, 0, 1);
    // 16 formulas on a side are read, 17 give 4.
    let sixteen = [1, 0].repeat(16);
    refuted(&format!("10 10 {} 20 00", "01 00 ".repeat(16)), 1, 0, 0, 1);
    everything(&[&[0x10, 0, 0x20, 16], &sixteen[..]].concat());
    refused(&[&[0x10, 17], &[1, 0].repeat(17)[..], &[0x20, 0]].concat(), 4, 1);
    refused(&[&[0x10, 0, 0x20, 17], &[1, 0].repeat(17)[..]].concat(), 4, 3);
    // 48 connectives are read, the 49th gives 6.
    let most = [&[0x10, 0, 0x20, 1], &[2; 48][..], &[1, 0]].concat();
    assert_eq!(calls::width(&most), (0, [1, 48]));
    assert_eq!(calls::decide(&most, LARGE), (0, [1, 0, 48, 0]));
    everything(&most);
    refused(&[&[0x10, 0, 0x20, 1], &[2; 49][..], &[1, 0]].concat(), 6, 4 + 48);
    // The empty slice gives 2 at place 0.
    refused(&[], 2, 0);
}

/// 212 bytes are read: 16 formulas on each side and 48 connectives with two parts. One byte more gives 1, whatever the
/// bytes are.
#[test]
fn the_longest_question() {
    let mut longest = vec![];
    for (command, connective) in [(0x10, 3), (0x20, 4)] {
        longest.extend([command, 16]);
        for place in 0..16 {
            // 24 connectives a side: one and two in turn. The left has the highest letters, the right the lowest.
            let letter = place + if command == 0x10 { LETTERS - 16 } else { 0 };
            longest.extend(vec![connective; 1 + (place as usize) % 2]);
            longest.extend([1, letter].repeat(2 + (place as usize) % 2));
        }
    }
    assert_eq!(longest.len(), 212);
    assert_eq!(calls::width(&longest), (0, [1, 48]));
    assert_eq!(calls::decide(&longest, LARGE), (0, [1, 0xffff << 48, 48, 0]));
    everything(&longest);
    for last in [0, 1, 7, 255] {
        refused(&[&longest[..], &[last]].concat(), 1, 212);
    }
    refused(&[255; 213], 1, 212);
    refused(&[255; 212], 3, 0);
    refused(&vec![0x10; 100_000], 1, 212);
}

/// The smallest questions that give 2, 3, 4, 5 and 7, on both sides, and the order of the numbers at one byte.
#[test]
fn smallest_refused_questions() {
    for (question, number, place) in [
        ("10", 2, 1),
        ("10 00", 2, 2),
        ("10 00 20", 2, 3),
        ("10 01", 2, 2),
        ("10 01 01", 2, 3),
        ("10 01 02", 2, 3),
        ("10 01 03 01 00", 2, 5),
        ("10 00 20 01", 2, 4),
        ("10 00 20 01 06 01 00 01", 2, 8),
        ("00", 3, 0),
        ("20", 3, 0),
        ("01", 3, 0),
        ("10 00 10", 3, 2),
        ("10 00 01", 3, 2),
        ("10 01 00", 3, 2),
        ("10 01 07", 3, 2),
        ("10 01 10", 3, 2),
        ("10 01 20", 3, 2),
        ("10 01 01 00 01", 3, 4),
        ("10 00 20 01 20", 3, 4),
        ("10 00 20 01 02 07", 3, 5),
        ("10 11", 4, 1),
        ("10 ff", 4, 1),
        ("10 00 20 11", 4, 3),
        ("10 01 01 40", 5, 3),
        ("10 01 01 ff", 5, 3),
        ("10 00 20 01 01 40", 5, 5),
        ("10 00 20 00 00", 7, 4),
        ("10 00 20 00 10", 7, 4),
        ("10 00 20 00 ff ff", 7, 4),
        ("10 00 20 01 01 00 01 00", 7, 6),
    ] {
        refused(&hex(question), number, place);
    }
    // 6 needs 48 connectives before it, and comes before what would follow.
    refused(&[&[0x10, 1], &[2; 49][..]].concat(), 6, 50);
    refused(&[&[0x10, 1], &[2; 48][..]].concat(), 2, 50);
    refused(&[&[0x10, 1], &[2; 48][..], &[7]].concat(), 3, 50);
    refused(&[&[0x10, 1], &[3; 48][..], &[6]].concat(), 6, 50);
    // The connectives of both sides count together.
    let both = [&[0x10, 1], &[2; 30][..], &[1, 0, 0x20, 1], &[2; 19][..], &[1, 0]].concat();
    refused(&both, 6, 2 + 30 + 4 + 18);
}

/// Numbers 9, 10 and 11 of the writer, and their order.
#[test]
fn smallest_derivations_not_written() {
    // 9 before 11: P EQUIV P with budget 0 and no room.
    let equiv = hex("10 00 20 01 06 01 00 01 00");
    assert_eq!(calls::decide(&equiv, 0), (9, [0, 0, 0, 0]));
    assert_eq!(calls::derive(&equiv, 0, 0), (9, [0, 0, 0], vec![]));
    // 10: nothing follows from nothing, also without room.
    assert_eq!(calls::derive(&hex("10 00 20 00"), 0, 0), (10, [0, 0, 0], vec![]));
    assert_eq!(calls::derive(&hex("10 01 01 3f 20 00"), 0, 9), (10, [1 << 63, 0, 0], vec![]));
    // 9 before 10: P OR Q on the left.
    let or = hex("10 01 04 01 00 01 01 20 00");
    assert_eq!(calls::derive(&or, 0, 9), (9, [0, 0, 0], vec![]));
    assert_eq!(calls::derive(&or, 1, 9), (10, [1, 1, 0], vec![]));
    // 11: the length needed.
    let closed = hex("10 01 01 05 20 01 01 05");
    assert_eq!(calls::derive(&closed, 0, 0), (11, [2, 0, 0], vec![]));
    assert_eq!(calls::derive(&closed, 0, 1), (11, [2, 0, 0], vec![]));
    assert_eq!(calls::derive(&closed, 0, 2), (0, [2, 0, 1], vec![0x41, 5]));
    assert_eq!(calls::derive(&equiv, 1, 5), (11, [6, 0, 0], vec![]));
    let equal = hex("10 01 02 01 05 20 01 02 01 05");
    assert_eq!(calls::derive(&equal, 0, 2), (11, [3, 0, 0], vec![]));
    assert_eq!(calls::derive(&equal, 0, 3), (0, [3, 0, 1], vec![0x42, 0, 0]));
}

/// All states that refute document 01's questions, and some others.
#[test]
fn every_refuting_state() {
    for (question, states) in [
        ("10 00 20 00", &[0][..]),
        ("10 01 01 00 20 01 01 01", &[1]),
        ("10 01 04 01 00 01 01 20 01 01 00", &[2]),
        ("10 01 06 01 00 01 00 20 00", &[0, 1]),
        (CASE_9, &[3]),
        // A letter on the left is true, one on the right false.
        ("10 01 01 3f 20 00", &[1 << 63]),
        ("10 00 20 01 01 3f", &[0]),
        // P OR Q on the left, and P OR R: Q does not occur there.
        ("10 01 04 01 00 01 01 20 00", &[1, 2, 3]),
        ("10 01 04 01 00 01 02 20 00", &[1, 4, 5]),
        // P OR Q on the left, P OR (R AND NOT R) on the right: R varies, though nothing depends on it.
        ("10 01 04 01 00 01 01 20 01 04 01 00 03 01 02 02 01 02", &[2, 6]),
        // Ascending as numbers, whichever letter is read first.
        ("10 01 02 03 01 00 01 3f 20 00", &[0, 1, 1 << 63]),
        ("10 01 02 03 01 3f 01 00 20 00", &[0, 1, 1 << 63]),
        ("10 01 02 03 01 20 01 1f 20 00", &[0, 1 << 31, 1 << 32]),
        ("10 00 20 01 05 01 3f 01 3e", &[1 << 63]),
        ("10 00 20 01 05 01 3e 01 3f", &[1 << 62]),
    ] {
        let question = hex(question);
        let count = states.len() as u64;
        assert_eq!(calls::states(&question, 8), (0, [count], states.to_vec()), "{:02x?}", question);
        assert_eq!(calls::states(&question, states.len() - 1), (11, [count], vec![]), "{:02x?}", question);
        everything(&question);
    }
}

/// Numbers 11 and 12 of the list, each at its smallest, and their order.
#[test]
fn smallest_lists_refused() {
    // 11: the number of states.
    let equiv = hex("10 01 06 01 00 01 00 20 00");
    assert_eq!(calls::states(&hex("10 00 20 00"), 0), (11, [1], vec![]));
    assert_eq!(calls::states(&equiv, 0), (11, [2], vec![]));
    assert_eq!(calls::states(&equiv, 1), (11, [2], vec![]));
    assert_eq!(calls::states(&equiv, 2), (0, [2], vec![0, 1]));
    // 12: 16 letters on the left and one on the right. It comes before 11, and also where there is room.
    let sixteen: Vec<u8> = (0..16).flat_map(|letter| [1, letter]).collect();
    let seventeen = [&[0x10, 16], &sixteen[..], &[0x20, 1, 1, 16]].concat();
    assert_eq!(calls::states(&seventeen, 0), (12, [17], vec![]));
    assert_eq!(calls::states(&seventeen, 1), (12, [17], vec![]));
    everything(&seventeen);
    // With the letters on the left alone: one state.
    let left = [&[0x10, 16], &sixteen[..], &[0x20, 0]].concat();
    assert_eq!(calls::states(&left, 0), (11, [1], vec![]));
    assert_eq!(calls::states(&left, 1), (0, [1], vec![0xffff]));
    // 1 to 7 come before 12.
    assert_eq!(calls::states(&[&seventeen[..], &[0]].concat(), 0), (7, [38], vec![]));
    assert_eq!(calls::states(&seventeen[..37], 9), (2, [37], vec![]));
}

/// The smallest spellings, by hand: whole, and with a room one byte short.
#[test]
fn smallest_spellings() {
    for (question, spelling) in [
        // Empty sides and single formulas are their own spellings.
        ("10 00 20 00", "10 00 20 00"),
        ("10 01 01 00 20 01 01 00", "10 01 01 00 20 01 01 00"),
        ("10 01 02 04 01 00 01 01 20 01 02 01 00", "10 01 02 04 01 00 01 01 20 01 02 01 00"),
        ("10 01 03 01 01 01 00 20 01 03 01 00 01 01", "10 01 03 01 01 01 00 20 01 03 01 00 01 01"),
        (CASE_9, CASE_9),
        // Two letters in order, in the other order, and the same one twice.
        ("10 02 01 00 01 01 20 00", "10 02 01 00 01 01 20 00"),
        ("10 02 01 01 01 00 20 00", "10 02 01 00 01 01 20 00"),
        ("10 02 01 00 01 00 20 00", "10 01 01 00 20 00"),
        // The same on the right.
        ("10 00 20 02 01 00 01 01", "10 00 20 02 01 00 01 01"),
        ("10 00 20 02 01 01 01 00", "10 00 20 02 01 00 01 01"),
        ("10 00 20 02 01 00 01 00", "10 00 20 01 01 00"),
        // Each side by itself: one in order, the other not; what stands on both stays on both.
        ("10 02 01 00 01 01 20 02 01 01 01 00", "10 02 01 00 01 01 20 02 01 00 01 01"),
        ("10 02 01 00 01 00 20 01 01 00", "10 01 01 00 20 01 01 00"),
    ] {
        let (question, spelling) = (hex(question), hex(spelling));
        let length = spelling.len();
        assert_eq!(calls::spell(&question, length), (0, [length as u64], spelling), "{:02x?}", question);
        assert_eq!(calls::spell(&question, length - 1), (11, [length as u64], vec![]), "{:02x?}", question);
        everything(&question);
    }
}

/// Number 11 of a spelling: its own length counts, not the question's. 1 to 7 come before it.
#[test]
fn smallest_spellings_not_written() {
    for (question, length) in [("10 00 20 00", 4), ("10 02 01 05 01 05 20 00", 6)] {
        for room in 0..length {
            assert_eq!(calls::spell(&hex(question), room), (11, [length as u64], vec![]), "room {}", room);
        }
        assert_eq!(calls::spell(&hex(question), length).0, 0);
    }
    for (question, number, place) in [
        (vec![0x10; 213], 1, 212),
        (hex("10 00"), 2, 2),
        (hex("10 00 10"), 3, 2),
        (hex("10 11"), 4, 1),
        (hex("10 01 01 40"), 5, 3),
        ([&[0x10, 1], &[2; 49][..]].concat(), 6, 50),
        (hex("10 00 20 00 00"), 7, 4),
    ] {
        for room in [0, 3, 4, 300] {
            assert_eq!(calls::spell(&question, room), (number, [place], vec![]), "{:02x?}", question);
        }
    }
}

/// The smallest questions that are made of clauses alone: verdict, state and rounds.
#[test]
fn smallest_clauses() {
    for (question, words) in [
        // No formula; P; NOT P; P and NOT P.
        ("10 00 20 00", [1, 0, 0]),
        ("10 01 01 00 20 00", [1, 1, 1]),
        ("10 01 01 3f 20 00", [1, 1 << 63, 1]),
        ("10 01 02 01 00 20 00", [1, 0, 0]),
        ("10 02 01 00 02 01 00 20 00", [0, 0, 1]),
        // P twice, and NOT P OR P.
        ("10 02 01 00 01 00 20 00", [1, 1, 1]),
        ("10 01 04 02 01 00 01 00 20 00", [1, 0, 0]),
        // "If P, then Q", by itself and with P.
        ("10 01 04 02 01 00 01 01 20 00", [1, 0, 0]),
        ("10 02 01 00 04 02 01 00 01 01 20 00", [1, 3, 2]),
    ] {
        let question = hex(question);
        assert_eq!(calls::clauses(&question), (0, words), "{:02x?}", question);
        everything(&question);
    }
}

/// Numbers 13, 14 and 15 of the clauses, each at its smallest, and their order. 1 to 7 come before them.
#[test]
fn smallest_questions_that_are_not_clauses() {
    for (question, number, place) in [
        ("10 00 20 01 01 00", 13, 4),
        ("10 01 01 00 20 01 01 00", 13, 6),
        ("10 00 20 02 01 00 01 01", 13, 4),
        ("10 01 02 02 01 00 20 00", 14, 2),
        ("10 01 03 01 00 01 01 20 00", 14, 2),
        ("10 01 05 01 00 01 01 20 00", 14, 2),
        ("10 01 06 01 00 01 01 20 00", 14, 2),
        ("10 01 02 04 01 00 01 01 20 00", 14, 2),
        ("10 02 01 00 02 02 01 00 20 00", 14, 4),
        ("10 01 04 01 00 01 01 20 00", 15, 2),
        ("10 01 04 01 00 01 00 20 00", 15, 2),
        ("10 02 01 00 04 01 00 01 01 20 00", 15, 4),
        // 13 before 14 and 15; at one formula 14 before 15; otherwise the earlier formula decides.
        ("10 01 02 02 01 00 20 01 01 00", 13, 8),
        ("10 01 04 01 00 01 01 20 01 01 00", 13, 9),
        ("10 01 04 04 01 00 01 01 02 02 01 00 20 00", 14, 2),
        ("10 02 04 01 00 01 01 02 02 01 00 20 00", 15, 2),
        ("10 02 02 02 01 00 04 01 00 01 01 20 00", 14, 2),
        // 1 to 7 before these.
        ("10 01 02 02 01 00 20", 2, 7),
        ("10 00 20 01 01 00 00", 7, 6),
        ("10 02 04 01 00 01 01 00", 3, 7),
        ("10 01 03 01 00 01 40 20 00", 5, 6),
        ("10 01 02 02 01 00 20 11", 4, 7),
    ] {
        let question = hex(question);
        assert_eq!(calls::clauses(&question), (number, [place, 0, 0]), "{:02x?}", question);
        everything(&question);
    }
    assert_eq!(calls::clauses(&[&[0x10, 1], &[2; 49][..]].concat()), (6, [50, 0, 0]));
    assert_eq!(calls::clauses(&[2; 213]), (1, [212, 0, 0]));
}

/// The lowest letter closes, wherever it stands.
#[test]
fn the_lowest_letter_closes() {
    theorem("10 03 01 09 01 05 01 07 20 03 01 07 01 09 01 05", 0, 1, 1, "41 05");
    theorem("10 03 01 3f 01 20 01 3e 20 03 01 3e 01 3f 01 20", 0, 1, 1, "41 20");
    theorem("10 02 01 3f 01 1f 20 02 01 1f 01 3f", 0, 1, 1, "41 1f");
    theorem("10 00 20 01 05 01 3f 01 3f", 1, 1, 1, "65 00 41 3f");
}

/// Equal formulas with a connective close where no letter does, at the lowest places.
#[test]
fn equal_formulas_close() {
    // A letter comes first, wherever it stands.
    theorem("10 02 02 01 00 01 01 20 02 02 01 00 01 01", 0, 1, 1, "41 01");
    // The lowest left place that has an equal, here 1, with the lowest right place of its equals. Left place 2 has an
    // equal at right place 0.
    let (left, right) = ("02 01 02 02 01 00 02 01 01 02 01 00", "02 01 01 02 01 03 02 01 00 02 01 00");
    theorem(&format!("10 04 {left} 20 04 {right}"), 0, 1, 1, "42 01 02");
    // After a reduction: IMPLIES with equal parts, by itself and between letters; EQUIV closes twice.
    theorem("10 00 20 01 05 02 01 00 02 01 00", 1, 1, 1, "65 00 42 00 00");
    theorem("10 01 01 01 20 02 01 02 05 02 01 00 02 01 00", 1, 1, 1, "65 01 42 01 01");
    theorem("10 00 20 01 06 02 01 00 02 01 00", 1, 2, 2, "66 00 42 00 00 42 00 00");
    // Equal in every state, but not in bytes.
    theorem("10 01 03 01 00 01 01 20 01 03 01 01 01 00", 2, 2, 2, "53 00 63 00 41 01 41 00");
    // A formula and the same with more in front; the last bytes are equal, too.
    theorem("10 01 02 01 00 20 01 02 02 02 01 00", 4, 1, 1, "52 00 62 00 52 00 62 01 41 00");
    // The same letter on both sides is no such formula: it closes as a letter.
    theorem("10 01 01 05 20 01 01 05", 0, 1, 1, "41 05");
    // NOT P OR NOT Q on the left, NOT P on the right: the first premise closes, the second is open after two more.
    let or = "10 01 04 02 01 00 02 01 01 20 01 02 01 00";
    refuted(or, 1, 3, 1, 2);
    assert_eq!(calls::decide(&hex(or), 1), (9, [0, 0, 1, 1]));
}

/// Each reduction by itself, with a letter beside it on both sides: places, premises and their order. The letters are
/// different, so that each sequent in turn is open or closed by one letter alone.
#[test]
fn each_reduction_by_itself() {
    for connective in 2..7 {
        let parts: &[u8] = if connective == 2 { &[1, 0] } else { &[1, 0, 1, 1] };
        for left in 0..2 {
            // Every way to have each of the letters 0 and 1 on the left, on the right, on both or on neither.
            for beside in 0..16u8 {
                let mut sides = [vec![vec![1, 8]], vec![vec![1, 9]]];
                for (bit, side, letter) in [(1, 0, 0), (2, 0, 1), (4, 1, 0), (8, 1, 1)] {
                    if beside & bit != 0 {
                        sides[side].push(vec![1, letter]);
                    }
                }
                sides[left].insert(1, [&[connective], parts].concat());
                let question = [
                    &[0x10, sides[0].len() as u8][..],
                    &sides[0].concat(),
                    &[0x20, sides[1].len() as u8],
                    &sides[1].concat(),
                ]
                .concat();
                everything(&question);
            }
        }
    }
}

/// The checker does not pass it, with this number and place; nor does the other one.
fn fails(question: &[u8], derivation: &str, number: u32, place: u64) {
    let derivation = hex(derivation);
    assert_eq!(calls::check(question, &derivation), (number, [place]), "{:02x?}", derivation);
    assert_eq!(common::order::check(question, &derivation), (number, place), "{:02x?}", derivation);
    let failed = gekunday::check(question, &derivation).unwrap_err();
    assert_eq!((failed.number(), failed.place()), (number, place));
}

/// The checker's numbers, each at its smallest.
#[test]
fn smallest_derivations_that_fail() {
    let closed = hex("10 01 01 00 20 01 01 00");
    let and = hex("10 01 03 01 00 01 01 20 01 03 01 00 01 01");
    let open = hex("10 01 01 00 20 01 01 01");
    for (question, derivation, number, place) in [
        (&closed, "", 20, 0),
        (&closed, "41", 20, 0),
        (&closed, "00", 20, 0),
        (&and, "53 00", 20, 2),
        (&and, "53 00 63", 20, 2),
        (&and, "53 00 63 00 41 00", 20, 6),
        (&and, "53 00 63 00 41 00 41", 20, 6),
        (&closed, "00 00", 21, 0),
        (&closed, "40 00", 21, 0),
        (&closed, "43 00", 21, 0),
        (&closed, "43 00 00", 21, 0),
        (&closed, "51 00", 21, 0),
        (&closed, "57 00", 21, 0),
        (&closed, "61 00", 21, 0),
        (&closed, "67 00", 21, 0),
        (&closed, "72 00", 21, 0),
        (&closed, "c1 00", 21, 0),
        (&and, "53 00 50 00", 21, 2),
        (&closed, "52 01", 22, 0),
        (&closed, "66 ff", 22, 0),
        (&and, "53 01", 22, 0),
        (&and, "54 01", 22, 0),
        (&and, "53 00 63 01", 22, 2),
        (&closed, "52 00", 23, 0),
        (&closed, "62 00", 23, 0),
        (&and, "52 00", 23, 0),
        (&and, "54 00", 23, 0),
        (&and, "64 00", 23, 0),
        (&and, "53 00 53 01", 23, 2),
        (&closed, "41 01", 24, 0),
        (&closed, "41 20", 24, 0),
        (&closed, "41 3f", 24, 0),
        (&closed, "41 40", 24, 0),
        (&closed, "41 ff", 24, 0),
        (&and, "41 00", 24, 0),
        (&open, "41 00", 24, 0),
        (&open, "41 01", 24, 0),
        (&and, "53 00 63 00 41 01", 24, 4),
        (&closed, "41 00 41", 25, 2),
        (&closed, "41 00 41 00", 25, 2),
        (&closed, "41 00 00 00 00", 25, 2),
        (&and, "53 00 63 00 41 00 41 01 ff", 25, 8),
    ] {
        fails(question, derivation, number, place);
    }
}

/// The same for 42, which closes on equal formulas.
#[test]
fn smallest_closings_on_equal_formulas_that_fail() {
    let closed = hex("10 01 01 00 20 01 01 00");
    let and = hex("10 01 03 01 00 01 01 20 01 03 01 00 01 01");
    let open = hex("10 01 01 00 20 01 01 01");
    // NOT P on the left, NOT P AND NOT P on the right.
    let twice = hex("10 01 02 01 00 20 01 03 02 01 00 02 01 00");
    // P and NOT P on the left; NOT P, NOT Q and NOT NOT P on the right.
    let alike = hex("10 02 01 00 02 01 00 20 03 02 01 00 02 01 01 02 02 01 00");
    for (question, derivation) in [(&and, "42 00 00"), (&twice, "63 00 42 00 00 42 00 00"), (&alike, "42 01 00")] {
        assert_eq!(calls::check(question, &hex(derivation)), (0, [0]));
    }
    for (question, derivation, number, place) in [
        (&closed, "42", 20, 0),
        (&closed, "42 00", 20, 0),
        (&and, "42 00", 20, 0),
        (&and, "42 01", 20, 0),
        (&twice, "63 00 42 00", 20, 2),
        (&twice, "63 00 42 00 00", 20, 5),
        (&twice, "63 00 42 00 00 42", 20, 5),
        (&twice, "63 00 42 00 00 42 00", 20, 5),
        (&twice, "63 00 42 00 00 00 00", 21, 5),
        (&and, "42 01 00", 22, 0),
        (&and, "42 00 01", 22, 0),
        (&and, "42 ff ff", 22, 0),
        (&closed, "42 01 00", 22, 0),
        (&closed, "42 00 01", 22, 0),
        (&twice, "63 00 42 00 00 42 00 01", 22, 5),
        (&and, "42 00 00 42", 25, 3),
        (&and, "42 00 00 42 00 00", 25, 3),
        (&twice, "63 00 42 00 00 42 00 00 00", 25, 8),
        (&closed, "42 00 00", 26, 0),
        (&open, "42 00 00", 26, 0),
        (&alike, "42 00 00", 26, 0),
        (&alike, "42 01 01", 26, 0),
        (&alike, "42 01 02", 26, 0),
        (&and, "53 00 42 00 00", 26, 2),
        (&twice, "42 00 00", 26, 0),
        (&twice, "52 00 63 00 62 00 42 00 00", 26, 6),
    ] {
        fails(question, derivation, number, place);
    }
    let failed = gekunday::check(&open, &[0x42, 0, 0]).unwrap_err();
    assert_eq!(failed, gekunday::NotPassed::NotEqual(0));
    assert_eq!(failed.to_string(), "not passed: the two formulas differ or are letters at 0");
}

/// The question is read before the derivation.
#[test]
fn the_checker_reads_the_question_first() {
    assert_eq!(calls::check(&[], &[]), (2, [0]));
    assert_eq!(calls::check(&[0x10, 0x11], &[0, 0, 0]), (4, [1]));
    assert_eq!(calls::check(&[0; 213], &[0x41, 0]), (1, [212]));
}
