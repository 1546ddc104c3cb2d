//! Questions that are made of clauses alone: verdict, least state and rounds, against a program written apart, the
//! truth table and the run; and questions that almost are. (Random questions of both kinds are also put to all other
//! calls: see `common/examine.rs`.)

mod common;

use common::examine::{clauses, least};
use common::prng::Prng;
use common::questions::{self, with_formulas, AND, LETTER, NOT, OR};
use common::{calls, hex, high_letters, spelling, truth, LETTERS};
use gekunday::{ClauseVerdict, NotClauses, Refusal};
use std::collections::BTreeSet;

/// The clauses of one question, in their order.
type Clauses = Vec<Vec<u8>>;

/// "If these letters, then that one": NOT of each, then the letter, if any, nested to the right.
fn rule(under_not: &[u8], without: Option<u8>) -> Vec<u8> {
    let mut parts: Clauses = under_not.iter().map(|&letter| vec![NOT, LETTER, letter]).collect();
    parts.extend(without.map(|letter| vec![LETTER, letter]));
    let last = parts.pop().unwrap();
    parts.into_iter().rev().fold(last, |rest, part| [vec![OR], part, rest].concat())
}

fn state_of(letters: &[u8]) -> u64 {
    letters.iter().fold(0, |state, letter| state | 1 << letter)
}

/// What the library answers to these clauses: 0 theorem or 1 refuted, state, rounds. The other program and the wrapper
/// agree.
fn decided(formulas: &[Vec<u8>]) -> [u64; 3] {
    let question = with_formulas(formulas, &[]);
    let (number, words) = clauses(&question);
    assert_eq!(number, 0, "{:02x?}", question);
    words
}

// By hand

/// The verdict and the state of the truth table. The letters are at most 16.
fn table(question: &[u8]) -> [u64; 2] {
    match &truth::read(question).unwrap().refuting()[..] {
        [] => [0, 0],
        states => [1, least(states)],
    }
}

/// P, Q and R are the letters 0 to 2.
#[test]
fn verdicts_by_hand() {
    for (question, words) in [
        // A letter that no clause makes true stays false, whatever follows from it.
        ("10 01 04 02 01 00 01 01 20 00", [1, 0, 0]),
        ("10 02 04 02 01 00 01 01 01 02 20 00", [1, 4, 1]),
        // Not all letters under NOT are true: NOT P OR NOT Q OR R, with P or with Q alone, and with both.
        ("10 02 04 02 01 00 04 02 01 01 01 02 01 00 20 00", [1, 1, 1]),
        ("10 02 04 02 01 00 04 02 01 01 01 02 01 01 20 00", [1, 2, 1]),
        ("10 03 04 02 01 00 04 02 01 01 01 02 01 01 01 00 20 00", [1, 7, 2]),
        // The letter without NOT may stand anywhere: R OR (NOT P OR NOT Q), (NOT P OR R) OR NOT Q.
        ("10 03 04 01 02 04 02 01 00 02 01 01 01 01 01 00 20 00", [1, 7, 2]),
        ("10 03 04 04 02 01 00 01 02 02 01 01 01 01 01 00 20 00", [1, 7, 2]),
        // A letter under NOT twice; a clause twice; a clause with its own letter under NOT, which says nothing.
        ("10 02 01 00 04 02 01 00 04 02 01 00 01 01 20 00", [1, 3, 2]),
        ("10 03 04 02 01 00 01 01 01 00 04 02 01 00 01 01 20 00", [1, 3, 2]),
        ("10 02 01 00 04 02 01 00 04 02 01 02 01 02 20 00", [1, 1, 1]),
        // From P follows Q and from Q follows P: neither is true, until R brings P.
        ("10 02 04 02 01 00 01 01 04 02 01 01 01 00 20 00", [1, 0, 0]),
        ("10 04 04 02 01 00 01 01 04 02 01 01 01 00 04 02 01 02 01 00 01 02 20 00", [1, 7, 3]),
        // Not both P and Q, with P, and with "if P, then Q", too. One false clause makes a theorem.
        ("10 02 04 02 01 00 02 01 01 01 00 20 00", [1, 1, 1]),
        ("10 03 04 02 01 00 02 01 01 01 00 04 02 01 00 01 01 20 00", [0, 0, 2]),
        ("10 03 01 00 02 01 00 01 01 20 00", [0, 0, 1]),
        // The letters 63, 32 and 31, each from the one before.
        ("10 03 04 02 01 20 01 1f 04 02 01 3f 01 20 01 3f 20 00", [1, 1 << 63 | 1 << 32 | 1 << 31, 3]),
    ] {
        let question = hex(question);
        assert_eq!(clauses(&question), (0, words), "{:02x?}", question);
        assert_eq!(words[..2], table(&question), "{:02x?}", question);
    }
}

/// Clauses by their letters, parted by blanks: `P` is P, `P>Q` is "if P, then Q", and `PQ>` is "not both P and Q".
fn rules(text: &str) -> Clauses {
    let letter = |name: u8| name - b'P';
    let clause = |word: &str| {
        let (ifs, then) = word.split_once('>').unwrap_or(("", word));
        rule(&ifs.bytes().map(letter).collect::<Vec<_>>(), then.bytes().next().map(letter))
    };
    text.split_whitespace().map(clause).collect()
}

/// What a round counts, and what it does not.
#[test]
fn rounds_by_hand() {
    for (text, words) in [
        // A round sees what was true when it started: P, Q and R take three, though each clause stands behind the one
        // that it needs. Nor does it matter where they stand.
        ("P P>Q Q>R", [1, 0b111, 3]),
        ("Q>R P>Q P", [1, 0b111, 3]),
        ("P>Q P Q>R", [1, 0b111, 3]),
        // The last round, which makes no letter true, is not counted. There may be no other.
        ("", [1, 0, 0]),
        ("P>Q Q>R", [1, 0, 0]),
        ("P>", [1, 0, 0]),
        ("P", [1, 0b1, 1]),
        // Nor is one counted in which clauses have only letters that are true already.
        ("P P>P", [1, 0b1, 1]),
        ("P P>Q Q>P", [1, 0b11, 2]),
        // Letters that come true together take one round, and so does one that comes true in two ways.
        ("P Q R", [1, 0b111, 1]),
        ("P Q P>R Q>R", [1, 0b111, 2]),
        // The short way counts: S follows from P, and later from R again.
        ("P P>Q Q>R P>S R>S", [1, 0b1111, 3]),
        // The long way counts where a clause has letters of both under NOT.
        ("PR>S P P>Q Q>R", [1, 0b1111, 4]),
        // A clause that is false early does not end the rounds: NOT P is false after the first.
        ("P> P P>Q Q>R", [0, 0, 3]),
        ("P P>Q Q>R R>", [0, 0, 3]),
        // The example of source document 001.
        ("PQ>R P>Q P R>", [0, 0, 3]),
    ] {
        assert_eq!(decided(&rules(text)), words, "{}", text);
    }
}

/// Number and place of questions that are not made of clauses alone. Places count from the question's first byte.
#[test]
fn refusals_by_hand() {
    for (question, number, place) in [
        // 13: behind a longer left side, with two formulas, and whatever the formula is.
        ("10 02 04 02 01 00 01 01 04 02 01 01 01 02 20 01 01 00", 13, 16),
        ("10 01 01 00 20 02 02 01 05 01 06", 13, 6),
        ("10 00 20 01 05 01 00 01 00", 13, 4),
        // 14: NOT NOT P, by itself and deep in the third formula; three times NOT.
        ("10 01 02 02 01 00 20 00", 14, 2),
        ("10 01 02 02 02 01 00 20 00", 14, 2),
        ("10 03 01 00 04 02 01 00 01 01 04 02 01 00 04 02 02 01 01 01 02 20 00", 14, 10),
        ("10 02 04 02 01 00 01 01 04 01 02 02 02 01 01 20 00", 14, 8),
        // NOT of an OR, though its parts are clauses; and where a clause is true in the same states as the formula.
        ("10 01 02 04 02 01 00 02 01 01 20 00", 14, 2),
        ("10 02 01 05 04 02 01 00 02 04 01 01 01 01 20 00", 14, 4),
        // AND, IMPLIES and EQUIV: as a whole, as a first part, as a second part, under NOT.
        ("10 01 03 02 01 00 02 01 01 20 00", 14, 2),
        ("10 01 05 01 00 01 01 20 00", 14, 2),
        ("10 01 06 02 01 00 02 01 01 20 00", 14, 2),
        ("10 02 01 00 04 03 01 00 01 01 02 01 02 20 00", 14, 4),
        ("10 02 02 01 00 04 02 01 02 05 01 00 01 01 20 00", 14, 5),
        ("10 02 02 01 00 04 02 01 02 04 02 06 01 00 01 01 01 01 20 00", 14, 5),
        // 15: two letters, also the same one, side by side and apart; three.
        ("10 01 04 01 00 01 01 20 00", 15, 2),
        ("10 01 04 01 3f 01 3f 20 00", 15, 2),
        ("10 02 02 01 00 04 01 00 04 02 01 01 01 00 20 00", 15, 5),
        ("10 02 01 00 04 04 01 00 02 01 01 04 02 01 02 01 03 20 00", 15, 4),
        ("10 01 04 04 01 00 01 01 01 02 20 00", 15, 2),
        // NOT P, too, does not make up for P twice.
        ("10 01 04 02 01 00 04 01 00 01 00 20 00", 15, 2),
    ] {
        assert_eq!(clauses(&hex(question)), (number, [place, 0, 0]), "{}", question);
    }
}

/// Two faults or three in one question. N is NOT NOT P, M is P OR Q, B has both faults, and C is a clause.
#[test]
fn the_order_of_refusals() {
    let formula = |name: char| match name {
        'N' => hex("02 02 01 00"),
        'M' => hex("04 01 00 01 01"),
        'B' => hex("04 04 01 00 01 01 02 02 01 00"),
        _ => hex("04 02 01 00 01 01"),
    };
    for (left, number, at) in [
        ("NM", 14, 0),
        ("MN", 15, 0),
        ("CNM", 14, 1),
        ("CMN", 15, 1),
        ("CCMCCN", 15, 2),
        ("CCNCCM", 14, 2),
        ("NN", 14, 0),
        ("MM", 15, 0),
        ("B", 14, 0),
        ("CB", 14, 1),
        ("CMB", 15, 1),
        ("BM", 14, 0),
        ("CCCCCCCCCCCCCCCM", 15, 15),
        ("CCCCCCCCCCCCCCCN", 14, 15),
    ] {
        let formulas: Clauses = left.chars().map(formula).collect();
        let start = |at: usize| 2 + formulas[..at].concat().len() as u64;
        assert_eq!(clauses(&with_formulas(&formulas, &[])), (number, [start(at), 0, 0]), "{}", left);
        // A formula on the right comes before them all, and a reading refusal behind it before that.
        let right = [&with_formulas(&formulas, &[vec![LETTER, 0]])[..], &[9]].concat();
        let (place, end) = (start(formulas.len()) + 2, right.len() - 1);
        assert_eq!(clauses(&right[..end]), (13, [place, 0, 0]), "{}", left);
        assert_eq!(clauses(&right), (7, [end as u64, 0, 0]), "{}", left);
        assert_eq!(clauses(&right[..end - 1]), (2, [end as u64 - 1, 0, 0]), "{}", left);
    }
}

// Many rounds, and large questions

/// A letter, and from each letter the next: as many rounds as letters, in the best order of the clauses, in the worst
/// and in others. A chain with a gap ends there. With NOT of one of its letters it is a theorem, with as many rounds.
#[test]
fn chains() {
    let mut rng = Prng::new(71);
    for (length, round) in (1..=16).flat_map(|length| (0..60).map(move |round| (length, round))) {
        let letters = questions::some_letters(&mut rng, length);
        let chain: Clauses =
            (0..length).map(|at| rule(&letters[at.saturating_sub(1)..at], Some(letters[at]))).collect();
        let mut ordered = |mut clauses: Clauses| {
            match round {
                0 => {}
                1 => clauses.reverse(),
                _ => rng.shuffle(&mut clauses),
            }
            decided(&clauses)
        };
        assert_eq!(ordered(chain.clone()), [1, state_of(&letters), length as u64]);
        for gap in 0..length {
            let with_gap = [&chain[..gap], &chain[gap + 1..]].concat();
            assert_eq!(ordered(with_gap), [1, state_of(&letters[..gap]), gap as u64]);
        }
        if length < 16 {
            for at in 0..length {
                let closed = [&chain[..], &[rule(&letters[at..=at], None)]].concat();
                assert_eq!(ordered(closed), [0, 0, length as u64]);
            }
        }
    }
}

/// Sixteen clauses from 63 down: the chain has as many rounds as any question, with all its letters over 47.
#[test]
fn the_longest_chain() {
    let mut chain: Clauses = vec![rule(&[], Some(63))];
    chain.extend((48..63).rev().map(|letter| rule(&[letter + 1], Some(letter))));
    assert_eq!(decided(&chain), [1, 0xffff << 48, 16]);
    chain.reverse();
    assert_eq!(decided(&chain), [1, 0xffff << 48, 16]);
    // Each needs all before it, as far as the connectives go.
    let mut chain: Clauses = (0..7).map(|letter| rule(&(0..letter).collect::<Vec<_>>(), Some(letter))).collect();
    assert_eq!(decided(&chain), [1, 0x7f, 7]);
    chain.reverse();
    assert_eq!(decided(&chain), [1, 0x7f, 7]);
}

/// Eight letters in the first round, seven in the second, each from two of the first; then not all of the seven.
#[test]
fn two_levels() {
    let firsts = 56..64;
    let seconds: Vec<u8> = (25..32).collect();
    let mut all: Clauses = firsts.clone().map(|letter| rule(&[], Some(letter))).collect();
    all.extend(seconds.iter().zip(firsts).map(|(&second, first)| rule(&[first, first + 1], Some(second))));
    let state = 0xff << 56 | state_of(&seconds);
    assert_eq!(decided(&all), [1, state, 2]);
    all.push(rule(&seconds, None));
    assert_eq!(decided(&all), [0, 0, 2]);
    assert_eq!(decided(&all.iter().rev().cloned().collect::<Clauses>()), [0, 0, 2]);
    // Without one of the first, the seconds that need it stay false, and "not all" is true.
    for gone in 0..8 {
        let mut less = all.clone();
        less.remove(gone);
        let missing = seconds.iter().enumerate().filter(|(at, _)| *at == gone || at + 1 == gone);
        let missing = missing.fold(1 << (56 + gone), |state, (_, letter)| state | 1 << letter);
        assert_eq!(decided(&less), [1, state & !missing, 2], "without {}", gone);
    }
}

/// 48 connectives in one clause: 24 letters under NOT and one without, beside fifteen letters.
#[test]
fn the_largest_clause() {
    let mut rng = Prng::new(72);
    for round in 0..400 {
        let letters = questions::some_letters(&mut rng, 17);
        let (facts, rest) = letters.split_at(15);
        let mut under_not: Vec<u8> = (0..24).map(|i| facts[i % 15]).collect();
        let missing = round % 2 == 1;
        if missing {
            under_not[rng.below(24)] = rest[1];
        }
        let mut all: Clauses = facts.iter().map(|&letter| rule(&[], Some(letter))).collect();
        all.push(questions::clause(&mut rng, &under_not, Some(rest[0])));
        rng.shuffle(&mut all);
        assert_eq!(calls::width(&with_formulas(&all, &[])).1[1], 48);
        let due = if missing { [1, state_of(facts), 1] } else { [1, state_of(&letters[..16]), 2] };
        assert_eq!(decided(&all), due);
    }
    // Alone; and 48 connectives that make no clause: OR over 49 letters, NOT 48 times over one.
    let alone = questions::clause(&mut rng, &(0..24).collect::<Vec<_>>(), Some(63));
    assert_eq!(decided(&[alone]), [1, 0, 0]);
    let letters: Vec<u8> = (0..49).flat_map(|letter| [LETTER, letter]).collect();
    assert_eq!(clauses(&with_formulas(&[[&[OR; 48][..], &letters].concat()], &[])), (15, [2, 0, 0]));
    assert_eq!(clauses(&with_formulas(&[[&[NOT; 48][..], &[LETTER, 0]].concat()], &[])), (14, [2, 0, 0]));
}

/// Thirteen clauses over letters of their own, then P and NOT P: the run takes all of them apart before it comes to NOT
/// P, in each of 472,392 ways. Unit clauses need one round.
#[test]
fn no_budget() {
    let mut all: Clauses = (0..10).map(|i| rule(&[1 + 3 * i, 2 + 3 * i], Some(3 + 3 * i))).collect();
    all.extend((0..3).map(|i| rule(&[31 + 2 * i], Some(32 + 2 * i))));
    all.extend([rule(&[], Some(0)), rule(&[0], None)]);
    let question = with_formulas(&all, &[]);
    assert_eq!(calls::width(&question), (0, [3u64.pow(10) * 8, 47]));
    assert_eq!(calls::decide(&question, 100_000).0, 9);
    assert_eq!(decided(&all), [0, 0, 1]);
    // With letter 1 in place of the last: refuted.
    all[14] = rule(&[1], None);
    assert_eq!(decided(&all), [1, 1, 1]);
}

// Random clauses

/// All clauses over three letters, with each letter under NOT at most once.
fn small_clauses() -> Clauses {
    let sets = (0..8u8).map(|set| (0..3).filter(|k| set >> k & 1 == 1).collect::<Vec<u8>>());
    let withouts = [None, Some(0), Some(1), Some(2)];
    let pairs = sets.flat_map(|set| withouts.map(|without| (set.clone(), without)));
    pairs
        .filter(|(set, without)| !set.is_empty() || without.is_some())
        .map(|(set, without)| rule(&set, without))
        .collect()
}

/// Every three of them.
#[test]
fn every_three_small_clauses() {
    let all = small_clauses();
    assert_eq!(BTreeSet::from_iter(&all).len(), 31);
    let mut rounds = [0u64; 4];
    for (f, g) in all.iter().flat_map(|f| all.iter().map(move |g| (f, g))) {
        for h in &all {
            let three = [f.clone(), g.clone(), h.clone()];
            let words = decided(&three);
            assert_eq!(words[..2], table(&with_formulas(&three, &[])), "{:02x?}", three);
            rounds[words[2] as usize] += 1;
        }
    }
    // Three rounds: a letter, from it another, and the third from the other or from both. The letters can be named in
    // six ways, and the clauses put in six orders.
    assert_eq!(rounds[3], 2 * 6 * 6);
    assert!(rounds.iter().all(|&count| count > 0), "{:?}", rounds);
}

/// Verdict and state of the truth table, and no more rounds than there can be.
#[test]
fn random_clauses_against_the_table() {
    let mut rng = Prng::new(73);
    let (mut kinds, mut by_rounds, mut high) = ([0u64; 2], [0u64; 17], 0);
    for _ in 0..30_000 {
        let question = questions::of_clauses(&mut rng);
        let (number, [kind, state, rounds]) = clauses(&question);
        let letters = truth::read(&question).unwrap().letters();
        assert_eq!(number, 0, "{:02x?}", question);
        if letters.len() <= 16 {
            assert_eq!([kind, state], table(&question), "{:02x?}", question);
        }
        assert!(rounds <= letters.len() as u64 && rounds <= question[1].into(), "{:02x?}", question);
        match kind {
            0 => assert!(rounds > 0, "{:02x?}", question),
            _ => assert!(rounds <= state.count_ones().into() && (rounds > 0) == (state > 0), "{:02x?}", question),
        }
        kinds[kind as usize] += 1;
        by_rounds[rounds as usize] += 1;
        high += u32::from(high_letters(state) != 0);
    }
    assert!(kinds[0] > 6_000 && kinds[1] > 6_000, "{:?}", kinds);
    assert!(by_rounds[..6].iter().all(|&count| count > 500) && by_rounds[9] > 10, "{:?}", by_rounds);
    assert!(by_rounds[2..].iter().sum::<u64>() > 10_000 && high > 10_000, "{:?} {}", by_rounds, high);
}

/// The run agrees wherever its budget is not spent, and a budget of c times W never is. Each letter of the least state
/// follows from the clauses, as the run says; the state that the run names has all of them.
#[test]
fn the_run_agrees() {
    let mut rng = Prng::new(74);
    let (mut kinds, mut spent, mut larger, mut followed) = ([0u64; 2], 0, 0, 0);
    for _ in 0..20_000 {
        let question = questions::of_clauses(&mut rng);
        let (_, [kind, least, _]) = clauses(&question);
        let (_, [width, connectives]) = calls::width(&question);
        let whole = width <= 400;
        let budget = if whole { connectives * width } else { 500 };
        let (number, [refuted, state, ..]) = calls::decide(&question, budget);
        if number != 0 {
            assert!(number == 9 && !whole, "{:02x?}", question);
            spent += 1;
            continue;
        }
        assert_eq!((refuted, state & least), (kind, least), "{:02x?}", question);
        kinds[kind as usize] += 1;
        larger += u32::from(state != least);
        let formulas: Clauses = spelling::formulas(&question).unwrap()[0].iter().map(|bytes| bytes.to_vec()).collect();
        for letter in (0..LETTERS).filter(|letter| least >> letter & 1 == 1) {
            let (number, [refuted, ..]) = calls::decide(&with_formulas(&formulas, &[vec![LETTER, letter]]), 2_000);
            assert!(number == 9 || refuted == 0, "{} and {:02x?}", letter, question);
            followed += u32::from(number == 0);
        }
    }
    assert!(kinds.iter().all(|&count| count > 2_000), "{:?}", kinds);
    assert!(spent > 100 && larger > 1_000 && followed > 10_000, "{} {} {}", spent, larger, followed);
}

/// The order of the clauses, repeats, the order of a clause's parts and how they are nested do not matter; nor does it
/// matter whether the question or its spelling is asked.
#[test]
fn what_does_not_matter() {
    let mut rng = Prng::new(75);
    let (mut shorter, mut differ) = (0, 0);
    for _ in 0..8_000 {
        let question = questions::of_clauses(&mut rng);
        let words = clauses(&question);
        let (number, _, spelling) = calls::spell(&question, question.len());
        assert_eq!(number, 0);
        assert_eq!(clauses(&spelling), words, "{:02x?} and its spelling", question);
        shorter += u32::from(spelling.len() < question.len());

        let read = common::clauses::read(&question).unwrap();
        let mut others: Clauses = vec![];
        for clause in &read {
            let under_not: Vec<u8> = clause.under_not.iter().copied().collect();
            others.push(questions::clause(&mut rng, &under_not, clause.without));
        }
        rng.shuffle(&mut others);
        let other = with_formulas(&others, &[]);
        assert_eq!(clauses(&other), words, "{:02x?} and {:02x?}", question, other);
        differ += u32::from(other != question);
    }
    assert!(shorter > 2_000 && differ > 5_000, "{} {}", shorter, differ);
}

/// R OR NOT Q, and P: Q is false and R need not be true, but the run takes R first.
#[test]
fn the_run_may_name_a_larger_state() {
    let question = hex("10 02 04 01 02 02 01 01 01 00 20 00");
    assert_eq!(calls::decide(&question, 1), (0, [1, 0b101, 1, 0]));
    assert_eq!(calls::states(&question, 9), (0, [3], vec![0b001, 0b101, 0b111]));
    assert_eq!(clauses(&question), (0, [1, 0b001, 1]));
}

// What is not made of clauses alone

/// Clauses with one or two formulas spoiled, or with formulas on the right, or with both: number and place are known
/// from how they were made.
#[test]
fn almost_clauses() {
    let mut rng = Prng::new(76);
    let (mut numbers, mut behind) = ([0u64; 16], 0);
    for _ in 0..40_000 {
        let (question, (number, place)) = questions::almost_of_clauses(&mut rng);
        assert_eq!(clauses(&question), (number, [place, 0, 0]), "{:02x?}", question);
        numbers[number as usize] += 1;
        behind += u32::from(place > 60);
    }
    assert!(numbers[13..].iter().all(|&count| count > 5_000) && behind > 1_000, "{:?} {}", numbers, behind);
}

/// No clause at one of sixteen places, or at two of them: the earlier decides.
#[test]
fn every_place() {
    let clause = rule(&[5], Some(6));
    let (not_clause, many) = (hex("03 02 01 05 02 01 06"), hex("04 01 05 04 02 01 05 01 06"));
    for (first, second) in (0..16).flat_map(|first| (first..16).map(move |second| (first, second))) {
        for [one, other] in [[&not_clause, &many], [&many, &not_clause]] {
            let mut formulas = vec![clause.clone(); 16];
            formulas[second] = other.clone();
            formulas[first] = one.clone();
            let number = if one[0] == AND { 14 } else { 15 };
            let place = 2 + 6 * first as u64;
            assert_eq!(clauses(&with_formulas(&formulas, &[])), (number, [place, 0, 0]), "{} {}", first, second);
        }
    }
}

/// Reading comes first: every prefix is cut, and bytes behind a question are left over, whatever it is made of.
#[test]
fn every_prefix() {
    let mut rng = Prng::new(77);
    for round in 0..300 {
        let question = match round % 3 {
            0 => questions::almost_of_clauses(&mut rng).0,
            _ => questions::of_clauses(&mut rng),
        };
        for end in 0..question.len() {
            assert_eq!(clauses(&question[..end]), (2, [end as u64, 0, 0]), "{:02x?}", &question[..end]);
        }
        let length = question.len() as u64;
        let more = [&question[..], &[rng.byte()]].concat();
        assert_eq!(clauses(&more), (7, [length, 0, 0]), "{:02x?}", more);
        let long = [&question[..], &[LETTER; 213]].concat();
        assert_eq!(clauses(&long[..212]), (7, [length, 0, 0]), "{:02x?}", more);
        assert_eq!(clauses(&long[..213]), (1, [212, 0, 0]), "{:02x?}", more);
    }
}

/// Every byte, every value: number, place and words as the other program has them.
#[test]
fn every_byte_takes_every_value() {
    let mut rng = Prng::new(78);
    let mut numbers = [0u64; 16];
    for round in 0..80 {
        let question = match round % 2 {
            0 => questions::almost_of_clauses(&mut rng).0,
            _ => questions::of_clauses(&mut rng),
        };
        let mut damaged = question.clone();
        for at in 0..question.len() {
            for value in 0..=255 {
                damaged[at] = value;
                numbers[clauses(&damaged).0 as usize] += 1;
            }
            damaged[at] = question[at];
        }
    }
    // 1 comes with more bytes.
    for number in [0, 2, 3, 4, 5, 6, 7, 13, 14, 15] {
        assert!(numbers[number] > 30, "{} is rare: {:?}", number, numbers);
    }
}

// The wrapper

#[test]
fn verdicts_with_their_types() {
    let answer = |question: &str| gekunday::clauses(&hex(question)).unwrap();
    assert_eq!(answer("10 00 20 00"), ClauseVerdict::Refuted { state: 0, rounds: 0 });
    assert_eq!(answer("10 01 01 3f 20 00"), ClauseVerdict::Refuted { state: 1 << 63, rounds: 1 });
    assert_eq!(answer("10 02 02 01 3f 01 3f 20 00"), ClauseVerdict::Theorem { rounds: 1 });
    assert_eq!(answer("10 03 02 01 01 04 02 01 00 01 01 01 00 20 00"), ClauseVerdict::Theorem { rounds: 2 });
}

#[test]
fn why_there_is_no_verdict() {
    for (question, why, number, place, text) in [
        ("10 00", NotClauses::Refused(Refusal::Cut(2)), 2, 2, "refused: cut at 2"),
        ("10 00 20 00 00", NotClauses::Refused(Refusal::LeftOver(4)), 7, 4, "refused: left over at 4"),
        ("10 00 20 01 01 00", NotClauses::RightFormula(4), 13, 4, "not clauses: a formula on the right at 4"),
        (
            "10 02 01 00 02 02 01 00 20 00",
            NotClauses::NotClause(4),
            14,
            4,
            "not clauses: a formula that is no clause at 4",
        ),
        (
            "10 01 04 01 00 01 00 20 00",
            NotClauses::ManyPositive(2),
            15,
            2,
            "not clauses: two or more letters without NOT in the formula at 2",
        ),
    ] {
        assert_eq!(gekunday::clauses(&hex(question)), Err(why));
        assert_eq!((why.number(), why.place(), why.to_string().as_str()), (number, place, text));
    }
}
