//! Letters by their numbers: each of the 64 is itself, no other letter and no formula with a connective, in every call.

mod common;

use common::examine::{examine, states, Seen};
use common::prng::Prng;
use common::questions::{self, renamed, AND, LETTER, NOT, OR};
use common::{calls, high_letters, order, HIGH, LETTERS};
use gekunday::NotWritten;

/// A question with these formulas.
fn question(left: &[Vec<u8>], right: &[Vec<u8>]) -> Vec<u8> {
    [&[0x10, left.len() as u8][..], &left.concat(), &[0x20, right.len() as u8], &right.concat()].concat()
}

fn letter(k: u8) -> Vec<u8> {
    vec![LETTER, k]
}

/// NOT so many times, over a letter.
fn nots(count: usize, k: u8) -> Vec<u8> {
    [vec![NOT; count], letter(k)].concat()
}

/// The checker answers 24 to every letter's closing but this one's, whatever byte numbers the letter.
fn closes_on(question: &[u8], shared: Option<u8>) {
    for k in 0..=255 {
        let expected = if shared == Some(k) { (0, [0]) } else { (24, [0]) };
        assert_eq!(calls::check(question, &[0x41, k]), expected, "41 {:02x} of {:02x?}", k, question);
        assert_eq!(order::check(question, &[0x41, k]), (expected.0, expected.1[0]));
    }
}

/// One letter on each side: a theorem exactly if they are the same one.
#[test]
fn every_pair_of_letters() {
    for (j, k) in (0..LETTERS).flat_map(|j| (0..LETTERS).map(move |k| (j, k))) {
        let question = question(&[letter(j)], &[letter(k)]);
        let state = 1 << j;
        if j == k {
            assert_eq!(calls::decide(&question, 0), (0, [0, 0, 0, 1]));
            assert_eq!(calls::derive(&question, 0, 2), (0, [2, 0, 1], vec![0x41, j]));
            assert_eq!(calls::states(&question, 1), (0, [0], vec![]));
            closes_on(&question, Some(j));
        } else {
            assert_eq!(calls::decide(&question, 0), (0, [1, state, 0, 0]), "{} and {}", j, k);
            assert_eq!(calls::derive(&question, 0, 2), (10, [state, 0, 0], vec![]), "{} and {}", j, k);
            assert_eq!(calls::states(&question, 1), (0, [1], vec![state]), "{} and {}", j, k);
            closes_on(&question, None);
        }
        assert_eq!(calls::check(&question, &[0x42, 0, 0]), (26, [0]));
        assert_eq!(calls::width(&question), (0, [1, 0]));
    }
}

/// The same inside a formula: from j follows j OR k, from j AND k follows k, and from j OR k does not follow k.
#[test]
fn every_pair_in_a_formula() {
    let both = |connective: u8, j: u8, k: u8| [vec![connective], letter(j), letter(k)].concat();
    for (j, k) in (0..LETTERS).flat_map(|j| (0..LETTERS).map(move |k| (j, k))) {
        let weaker = question(&[letter(j)], &[both(OR, j, k)]);
        assert_eq!(calls::derive(&weaker, 1, 4), (0, [4, 1, 1], vec![0x64, 0, 0x41, j]));
        let stronger = question(&[both(AND, j, k)], &[letter(k)]);
        assert_eq!(calls::derive(&stronger, 1, 4), (0, [4, 1, 1], vec![0x53, 0, 0x41, k]));
        let either = question(&[both(OR, j, k)], &[letter(k)]);
        if j != k {
            assert_eq!(calls::decide(&either, 1), (0, [1, 1 << j, 1, 0]), "{} and {}", j, k);
            assert_eq!(states(&either), [1 << j]);
            assert_eq!(states(&question(&[both(AND, j, k)], &[])), [1 << j | 1 << k]);
        }
    }
}

/// The same in a spelling: the lower letter comes first, and one letter twice is written once.
#[test]
fn every_pair_in_a_spelling() {
    for (j, k) in (0..LETTERS).flat_map(|j| (0..LETTERS).map(move |k| (j, k))) {
        let pair = question(&[letter(j), letter(k)], &[letter(k), letter(j)]);
        let side: Vec<Vec<u8>> = if j == k { vec![letter(j)] } else { vec![letter(j.min(k)), letter(j.max(k))] };
        let spelling = question(&side, &side);
        assert_eq!(calls::spell(&pair, 12), (0, [spelling.len() as u64], spelling), "{} and {}", j, k);
    }
}

/// The same in clauses: j and "if j, then k", which says nothing more where they are the same one; k and that rule; j
/// and NOT k, a theorem exactly if they are the same one; j OR k, which has two letters without NOT in any case.
#[test]
fn every_pair_in_clauses() {
    for (j, k) in (0..LETTERS).flat_map(|j| (0..LETTERS).map(move |k| (j, k))) {
        let rule = [vec![OR], nots(1, j), letter(k)].concat();
        let both = 1 << j | 1 << k;
        let rounds = if j == k { 1 } else { 2 };
        assert_eq!(calls::clauses(&question(&[letter(j), rule.clone()], &[])), (0, [1, both, rounds]), "{} {}", j, k);
        assert_eq!(calls::clauses(&question(&[rule, letter(k)], &[])), (0, [1, 1 << k, 1]), "{} {}", j, k);
        let due = if j == k { [0, 0, 1] } else { [1, 1 << j, 1] };
        assert_eq!(calls::clauses(&question(&[letter(j), nots(1, k)], &[])), (0, due), "{} {}", j, k);
        let two = question(&[[vec![OR], letter(j), letter(k)].concat()], &[]);
        assert_eq!(calls::clauses(&two), (15, [2, 0, 0]), "{} {}", j, k);
    }
}

/// A letter is no formula with a connective, whatever its number, and however many such formulas there are.
#[test]
fn letters_beside_formulas() {
    for k in 0..LETTERS {
        let other = (k + HIGH) % LETTERS;
        for count in 1..=48 {
            let from_left = question(&[letter(k)], &[nots(count, other)]);
            let from_right = question(&[nots(count, other)], &[letter(k)]);
            // Each NOT moves the other letter to the other side.
            let (moved, back) = if count % 2 == 1 { (1 << other, 0) } else { (0, 1 << other) };
            for (question, state) in [(from_left, 1 << k | moved), (from_right, back)] {
                assert_eq!(calls::decide(&question, 48), (0, [1, state, count as u64, 0]), "{:02x?}", question);
                closes_on(&question, None);
                assert_eq!(calls::check(&question, &[0x42, 0, 0]), (26, [0]));
            }
        }
        // 16 different formulas with three connectives each.
        let many: Vec<Vec<u8>> = (0..16).map(|place| nots(3, (k + 1 + place) % LETTERS)).collect();
        let full = question(&[letter(k)], &many);
        for place in 0..=255 {
            let number = if place < 16 { 26 } else { 22 };
            assert_eq!(calls::check(&full, &[0x42, 0, place]), (number, [0]), "42 00 {:02x} of {:02x?}", place, full);
        }
        closes_on(&full, None);
        examine(&full, &mut Prng::new(51), 1_000, &mut Seen::default());
    }
}

/// Equal formulas with a connective close by 42 alone: 41 closes on none of them, whatever byte it names.
#[test]
fn equal_formulas_are_no_letter() {
    for k in 0..LETTERS {
        for count in 1..=24 {
            let question = question(&[nots(count, k)], &[nots(count, k)]);
            assert_eq!(calls::derive(&question, 0, 3), (0, [3, 0, 1], vec![0x42, 0, 0]));
            closes_on(&question, None);
        }
        // Beside different letters.
        let (before, behind) = ((k + HIGH) % LETTERS, (k + 1) % LETTERS);
        let question = question(&[letter(before), nots(1, k)], &[letter(behind), nots(1, k)]);
        assert_eq!(calls::derive(&question, 0, 3), (0, [3, 0, 1], vec![0x42, 1, 1]));
        closes_on(&question, None);
    }
}

/// Every byte as the number of a letter: 0 to 63 are read, the others give 5 at their place, in each call.
#[test]
fn every_byte_as_a_letter() {
    for (question, place) in [
        (vec![0x10, 1, LETTER, 0, 0x20, 0], 3),
        (vec![0x10, 0, 0x20, 1, LETTER, 0], 5),
        (vec![0x10, 1, AND, LETTER, 0, NOT, LETTER, 0, 0x20, 1, LETTER, 1], 7),
        (vec![0x10, 1, LETTER, 1, 0x20, 2, LETTER, 2, OR, LETTER, 0, LETTER, 3], 10),
    ] {
        for byte in 0..=255 {
            let mut question = question.clone();
            question[place] = byte;
            let mut seen = Seen::default();
            examine(&question, &mut Prng::new(52), 100, &mut seen);
            let word = place as u64;
            if byte < LETTERS {
                assert_eq!((calls::width(&question).0, seen.refused), (0, [0; 8]), "{:02x?}", question);
                continue;
            }
            assert_eq!(calls::decide(&question, 9), (5, [word, 0, 0, 0]), "{:02x?}", question);
            assert_eq!(calls::width(&question), (5, [word, 0]), "{:02x?}", question);
            assert_eq!(calls::derive(&question, 9, 9), (5, [word, 0, 0], vec![]), "{:02x?}", question);
            assert_eq!(calls::check(&question, &[0x41, byte]), (5, [word]), "{:02x?}", question);
            assert_eq!(calls::states(&question, 9), (5, [word], vec![]), "{:02x?}", question);
            assert_eq!(calls::spell(&question, 99), (5, [word], vec![]), "{:02x?}", question);
            assert_eq!(calls::clauses(&question), (5, [word, 0, 0]), "{:02x?}", question);
            assert_eq!(calls::formula(&question, 0, 0), (0, [0, 0]), "{:02x?}", question);
        }
    }
}

/// So many letters from a first one on, joined in at most 16 formulas on the left: all of them are true.
#[test]
fn all_letters_of_a_state() {
    for (first, count) in [(0, LETTERS), (HIGH, LETTERS - HIGH), (0, HIGH), (LETTERS - 16, 16), (HIGH - 8, 16)] {
        let each = count / 16;
        let formulas: Vec<Vec<u8>> = (0..16)
            .map(|place| {
                let letters = (0..each).flat_map(|i| letter(first + 16 * i + place));
                [vec![AND; usize::from(each) - 1], letters.collect()].concat()
            })
            .collect();
        let question = question(&formulas, &[]);
        let state = (first..first + count).fold(0, |set, k| set | 1 << k);
        let reductions = u64::from(count) - 16;
        assert_eq!(calls::decide(&question, reductions), (0, [1, state, reductions, 0]));
        assert_eq!(calls::derive(&question, reductions, 9), (10, [state, reductions, 0], vec![]));
        let listed = if count == 16 { (0, [1], vec![state]) } else { (12, [count.into()], vec![]) };
        assert_eq!(calls::states(&question, 1), listed);
        assert_eq!(gekunday::decide(&question, 99).unwrap().kind, gekunday::Kind::Refuted(state));
    }
}

/// States stored with 32 bits, from when letters went to 31, are the numbers that are answered now.
#[test]
fn stored_states() {
    let stored: [u32; 3] = [0x4000_0000, 0x8000_0000, 0xc000_0000];
    // Letter 31 OR letter 30 on the left.
    let question = [0x10, 1, OR, LETTER, 31, LETTER, 30, 0x20, 0];
    assert_eq!(states(&question), stored.map(u64::from));
    let verdict = gekunday::decide(&question, 1).unwrap();
    assert_eq!(verdict.kind, gekunday::Kind::Refuted(stored[1].into()));
    let written = gekunday::derive(&question, 1, &mut []);
    assert_eq!(written, Err(NotWritten::NotProved { state: stored[1].into(), reductions: 1, closings: 0 }));
}

/// The derivation with each letter that closes renamed.
fn renamed_closings(derivation: &[u8], name: impl Fn(u8) -> u8) -> Vec<u8> {
    let renamed = |command: &&[u8]| match **command {
        [0x41, k] => vec![0x41, name(k)],
        _ => command.to_vec(),
    };
    order::commands(derivation).iter().flat_map(renamed).collect()
}

/// Two questions that differ in the names of their letters, in the same order: `name` and `moved` say how, of a letter
/// and of a state. Answers whether the derivation, the state, the list and the least state of clauses differ.
fn alike(question: &[u8], name: impl Fn(u8) -> u8, moved: impl Fn(u64) -> u64) -> [bool; 4] {
    let other = renamed(question, &name);
    assert_eq!(calls::width(&other), calls::width(question));
    for (side, place) in [(0, 0), (0, 2), (1, 0), (1, 1)] {
        assert_eq!(calls::formula(&other, side, place), calls::formula(question, side, place));
    }
    let (number, [refuted, state, reductions, closings]) = calls::decide(question, 2_000);
    assert_eq!(calls::decide(&other, 2_000), (number, [refuted, moved(state), reductions, closings]), "{:02x?}", other);

    let (number, mut words, derivation) = calls::derive(question, 2_000, 4_096);
    if number == 10 {
        words[0] = moved(words[0]);
    }
    let due = renamed_closings(&derivation, &name);
    assert_eq!(calls::derive(&other, 2_000, 4_096), (number, words, due.clone()), "{:02x?}", other);
    if number == 0 {
        assert_eq!(calls::check(&other, &due), (0, [0]), "{:02x?}", other);
    }

    let (number, words, listed) = calls::states(question, 1_024);
    let due_list: Vec<u64> = listed.iter().map(|&state| moved(state)).collect();
    assert_eq!(calls::states(&other, 1_024), (number, words, due_list.clone()), "{:02x?}", other);

    let (number, words, spelling) = calls::spell(question, question.len());
    assert_eq!(calls::spell(&other, other.len()), (number, words, renamed(&spelling, &name)), "{:02x?}", other);

    let (number, [first, least, rounds]) = calls::clauses(question);
    assert_eq!(calls::clauses(&other), (number, [first, moved(least), rounds]), "{:02x?}", other);
    [due != derivation, moved(state) != state, due_list != listed, moved(least) != least]
}

fn some_question(rng: &mut Prng) -> Vec<u8> {
    match rng.below(6) {
        0 | 1 => questions::short(rng),
        2 => questions::theorem(rng, 8),
        3 => questions::repeated(rng),
        4 => questions::near_limits(rng),
        _ => questions::of_clauses(rng),
    }
}

/// Letters 0 to 31 against 32 to 63: the same verdict, counts and width, states moved up by 32 bits, and the same
/// derivation but for the letters that close.
#[test]
fn the_lower_half_and_the_upper() {
    let mut rng = Prng::new(53);
    let mut differ = [0; 4];
    for _ in 0..20_000 {
        let lower = renamed(&some_question(&mut rng), |k| k % HIGH);
        let seen = alike(&lower, |k| k + HIGH, |state| state << HIGH);
        (0..4).for_each(|i| differ[i] += u32::from(seen[i]));
        let (_, [_, state, ..]) = calls::decide(&lower, 2_000);
        let (.., listed) = calls::states(&lower, 1_024);
        assert!(listed.iter().chain([&state]).all(|&state| high_letters(state) == 0), "{:02x?}", lower);
    }
    assert!(differ.iter().all(|&count| count > 1_500), "{:?}", differ);
}

/// Letters moved apart in the same order, anywhere in 0 to 63.
#[test]
fn letters_moved_apart() {
    let mut rng = Prng::new(54);
    let mut differ = [0; 4];
    for _ in 0..20_000 {
        let count = rng.within(1, 40) as u8;
        let near = renamed(&some_question(&mut rng), |k| k % count);
        let mut names = questions::some_letters(&mut rng, count.into());
        names.sort_unstable();
        let moved = |state: u64| (0..count).filter(|k| state >> k & 1 == 1).map(|k| 1 << names[k as usize]).sum();
        let seen = alike(&near, |k| names[k as usize], moved);
        (0..4).for_each(|i| differ[i] += u32::from(seen[i]));
    }
    assert!(differ.iter().all(|&count| count > 1_500), "{:?}", differ);
}
