//! The list of all states that refute a question: that it is exact, how long it gets, and how many letters it takes.
//! (The random questions with few letters are compared where they are examined: see `common/examine.rs`.)

mod common;

use common::examine::states;
use common::prng::Prng;
use common::questions::{self, Shape, AND, EQUIV, LETTER, NOT, OR};
use common::{calls, high_letters, truth, HIGH, LETTERS};
use gekunday::{NotListed, Refusal, VARIED_MAX};
use std::ops::Range;

/// A question of letters alone, up to 16 on a side. More are joined, by AND on the left and by OR on the right.
fn letters_alone(left: Range<u8>, right: Range<u8>) -> Vec<u8> {
    let mut question = vec![];
    for (command, connective, letters) in [(0x10, AND, left), (0x20, OR, right)] {
        let formulas = letters.len().min(16);
        question.extend([command, formulas as u8]);
        for first in letters.clone().take(formulas) {
            let joined: Vec<u8> = (first..letters.end).step_by(16).collect();
            question.extend(vec![connective; joined.len() - 1]);
            question.extend(joined.iter().flat_map(|&letter| [LETTER, letter]));
        }
    }
    question
}

/// The state in which these letters are true.
fn state_of(letters: Range<u8>) -> u64 {
    letters.fold(0, |set, letter| set | 1 << letter)
}

/// A random question with so many different letters, 48 connectives, and at most so many formulas on each side.
fn with_letters(rng: &mut Prng, count: usize, formulas: usize) -> Vec<u8> {
    loop {
        let letters = questions::some_letters(rng, count);
        let shape = Shape { letters, thrift: rng.pick(&[0, 30]), apart: rng.chance(50), nots: rng.chance(50) };
        let (left, right) = (rng.within(0, formulas), rng.within(1, formulas));
        let question = questions::question(rng, &shape, left, right, 48);
        if truth::read(&question).unwrap().letters().len() == count {
            return question;
        }
    }
}

/// A theorem has an empty list, and the state that `decide` refutes with is listed. False where the budget is spent.
fn decided(question: &[u8], listed: &[u64]) -> bool {
    match calls::decide(question, 100_000) {
        (0, [0, ..]) => assert!(listed.is_empty(), "the list of {:02x?}", question),
        (0, [_, state, ..]) => {
            assert!(listed.contains(&state), "the list of {:02x?} lacks {}", question, state);
        }
        (number, _) => {
            assert_eq!(number, 9);
            return false;
        }
    }
    true
}

/// Of all numbers over eight letters, those are listed that make the question false and have only letters that occur.
#[test]
fn a_state_is_listed_exactly_if_it_refutes() {
    let mut rng = Prng::new(31);
    let (mut listed, mut others) = (0, 0);
    for round in 0..4_000 {
        // The lowest letters, those around 32 and the highest in turn.
        let base = [0, HIGH - 4, LETTERS - 8][round % 3];
        let letters = (0..rng.within(1, 8)).map(|_| base + rng.below(8) as u8).collect();
        let shape = Shape { letters, thrift: 0, apart: false, nots: true };
        let (left, right, connectives) = (rng.below(3), rng.below(2), rng.below(20));
        let question = questions::question(&mut rng, &shape, left, right, connectives);
        let table = truth::read(&question).unwrap();
        let occurring = table.letters().iter().fold(0u64, |set, letter| set | 1 << letter);

        let (number, [count], states) = calls::states(&question, 256);
        let refuting: Vec<u64> = (0..256).map(|low| low << base).filter(|&state| !table.true_in(state)).collect();
        let due: Vec<u64> = refuting.iter().copied().filter(|state| state & !occurring == 0).collect();
        assert_eq!((number, count, &states), (0, due.len() as u64, &due), "states of {:02x?}", question);
        listed += due.len();
        others += refuting.len() - due.len();
    }
    assert!(listed > 10_000 && others > 100_000, "{} {}", listed, others);
}

/// NOT (k AND NOT k) on the left for each of 16 letters, with 48 connectives in all: every state refutes.
#[test]
fn the_longest_list() {
    let every = |letter: fn(u8) -> u8| {
        let formulas = (0..16).flat_map(|k| [NOT, AND, LETTER, letter(k), NOT, LETTER, letter(k)]);
        [vec![0x10, 16], formulas.collect(), vec![0x20, 0]].concat()
    };
    let question = every(|k| k);
    assert_eq!(calls::width(&question).1[1], 48);
    assert_eq!(calls::states(&question, 65_535), (11, [1 << VARIED_MAX], vec![]));
    assert_eq!(calls::states(&question, 65_536), (0, [65_536], (0..65_536).collect()));
    assert_eq!(states(&question).len(), 65_536);

    // Every fourth letter, read from the highest on: the numbers ascend all the same.
    let question = every(|k| LETTERS - 1 - 4 * k);
    let listed = states(&question);
    assert_eq!((listed.len(), &listed[..4]), (65_536, &[0, 1 << 3, 1 << 7, 1 << 7 | 1 << 3][..]));
    assert_eq!(listed[65_535], 0x8888_8888_8888_8888);
    assert!(decided(&question, &listed));

    // The sixteen highest letters.
    let question = every(|k| LETTERS - 16 + k);
    assert_eq!(states(&question), (0..65_536).map(|low| low << 48).collect::<Vec<u64>>());
}

/// EQUIV 48 times over 16 letters: half of all states refute.
#[test]
fn half_of_all_states() {
    let letters: Vec<u8> = (0..49).flat_map(|place| [LETTER, LETTERS - 1 - place % 16]).collect();
    let question = [&[0x10, 0, 0x20, 1], &[EQUIV; 48][..], &letters].concat();
    let listed = states(&question);
    assert_eq!(listed.len(), 32_768);
    assert!(decided(&question, &listed));
}

/// Random questions with 48 connectives and 11 to 16 letters.
#[test]
fn long_lists() {
    let mut rng = Prng::new(32);
    let (mut long, mut theorems, mut verdicts, mut high) = (0, 0, 0, 0);
    for count in 11..=16 {
        for _ in 0..30 {
            let question = with_letters(&mut rng, count, 2);
            let listed = states(&question);
            long += u32::from(listed.len() > 256);
            theorems += u32::from(listed.is_empty());
            verdicts += u32::from(decided(&question, &listed));
            high += u32::from(listed.iter().any(|&state| high_letters(state) != 0));
        }
    }
    assert!(long > 60 && theorems > 30 && verdicts > 150, "{} {} {}", long, theorems, verdicts);
    assert!(high >= long, "{} {}", high, long);
}

/// 16 different letters give a list, 17 and more give 12 with their number, whatever the room. Both sides count.
#[test]
fn from_no_letter_to_all() {
    for count in 0..=LETTERS {
        for (first, left) in [(0, count / 2), (LETTERS - count, count.min(16)), ((LETTERS - count) / 2, count), (0, 0)]
        {
            let (middle, end) = (first + left, first + count);
            let question = letters_alone(first..middle, middle..end);
            // False only where the letters on the left are true and those on the right are not.
            assert_eq!(calls::decide(&question, 48).1[..2], [1, state_of(first..middle)], "{} letters", count);
            if count <= 16 {
                assert_eq!(states(&question), [state_of(first..middle)], "{} letters", count);
                continue;
            }
            for room in [0, 1, 65_535, 65_536, 200_000] {
                assert_eq!(calls::states(&question, room), (12, [count.into()], vec![]), "{} letters", count);
            }
            assert!(states(&question).is_empty());
        }
    }
}

/// A letter counts once, however often it occurs: these have 48 connectives.
#[test]
fn many_letters() {
    let mut rng = Prng::new(33);
    for count in 17..=LETTERS.into() {
        for _ in 0..20 {
            let question = questions::many_letters(&mut rng, count);
            for room in [0, 1, 70_000] {
                assert_eq!(calls::states(&question, room), (12, [count as u64], vec![]), "{:02x?}", question);
            }
        }
    }
}

/// 12 is not for the lists that would be long: a theorem with 17 letters gives it, too.
#[test]
fn theorems_with_many_letters() {
    for first in [0, HIGH - 8, LETTERS - 17] {
        let sixteen = letters_alone(first..first + 16, first..first + 16);
        assert_eq!(calls::states(&sixteen, 0), (0, [0], vec![]));
        assert!(states(&sixteen).is_empty() && decided(&sixteen, &[]));
        let seventeen = letters_alone(first..first + 16, first + 15..first + 17);
        assert_eq!(calls::states(&seventeen, 0), (12, [17], vec![]));
        assert!(states(&seventeen).is_empty() && decided(&seventeen, &[]));
    }
}

/// Every byte, every value: 1 to 7 as the other reader says, before 12 and 11.
#[test]
fn every_byte_takes_every_value() {
    let mut rng = Prng::new(34);
    let mut numbers = [0u64; 13];
    for round in 0..40 {
        // Of 18 letters, most damage leaves too many for a list.
        let question = if round % 8 == 0 { with_letters(&mut rng, 18, 3) } else { questions::short(&mut rng) };
        let mut damaged = question.clone();
        for at in 0..question.len() {
            for value in 0..=255 {
                damaged[at] = value;
                let room = rng.below(4);
                let expected = truth::states(&damaged, room);
                numbers[expected.0 as usize] += 1;
                assert_eq!(calls::states(&damaged, room), expected, "states of {:02x?} with room {}", damaged, room);
            }
            damaged[at] = question[at];
        }
    }
    // 1 comes with more bytes.
    for number in [0, 2, 3, 4, 5, 6, 7, 11, 12] {
        assert!(numbers[number] > 100, "{} is rare: {:?}", number, numbers);
    }
    let long = [with_letters(&mut rng, 18, 3), vec![LETTER; 212]].concat();
    for room in [0, 9] {
        assert_eq!(calls::states(&long[..213], room), (1, [212], vec![]));
    }
}

#[test]
fn why_nothing_was_listed() {
    for (question, why, text) in [
        (vec![0x10, 0], NotListed::Refused(Refusal::Cut(2)), "refused: cut at 2"),
        (letters_alone(0..9, 9..20), NotListed::ManyLetters { letters: 20 }, "many letters: 20 different ones"),
        (letters_alone(0..9, 9..16), NotListed::NoSpace { needed: 1 }, "no space: 1 states needed"),
    ] {
        let answer = gekunday::states(&question, &mut []);
        assert_eq!(answer, Err(why));
        assert_eq!(why.to_string(), text);
    }
}
