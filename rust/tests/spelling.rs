//! The standard spelling: the same for the same sets of formulas, another one for others; what it keeps, and what it
//! does not keep. (Random questions are also compared with the other spelling where they are examined: see
//! `common/examine.rs`.)

mod common;

use common::prng::Prng;
use common::questions::{self, with_formulas, Shape, AND, EQUIV, IMPLIES, LETTER, NOT, OR};
use common::{calls, hex, order, spelling, tree, truth, LETTERS};
use gekunday::{NotSpelled, Refusal, QUESTION_MAX};
use std::collections::{BTreeMap, BTreeSet};

/// The formulas of one side, in their order.
type Side = Vec<Vec<u8>>;

/// The library's spelling of an accepted question. The question's own length is room enough.
fn spell(question: &[u8]) -> Vec<u8> {
    let (number, [word], spelling) = calls::spell(question, question.len());
    assert_eq!((number, word), (0, spelling.len() as u64), "spell {:02x?}", question);
    spelling
}

fn some_question(rng: &mut Prng) -> Vec<u8> {
    match rng.below(6) {
        0 => questions::short(rng),
        1 => questions::theorem(rng, 8),
        2 | 3 => questions::repeated(rng),
        4 => questions::near_limits(rng),
        _ => {
            let letters = rng.within(10, LETTERS.into());
            questions::many_letters(rng, letters)
        }
    }
}

/// The formulas of each side of a question, each once.
fn different(question: &[u8]) -> [Side; 2] {
    spelling::sets(question).unwrap().map(|set| set.into_iter().map(<[u8]>::to_vec).collect())
}

/// A question with these formulas in a random order. Up to `more` of them stand there again, as far as the limits go.
fn arranged(rng: &mut Prng, formulas: &[Side; 2], more: usize) -> Vec<u8> {
    let mut sides = formulas.clone();
    for _ in 0..more {
        let side = rng.below(2);
        let Some(again) = formulas[side].get(rng.below(formulas[side].len())) else { continue };
        sides[side].push(again.clone());
        if tree::read(&with_formulas(&sides[0], &sides[1])).is_err() {
            sides[side].pop();
        }
    }
    sides.iter_mut().for_each(|side| rng.shuffle(side));
    with_formulas(&sides[0], &sides[1])
}

#[test]
fn spellings_by_hand() {
    for (question, spelling) in [
        // The first byte decides: a letter comes before NOT, whatever its number.
        ("10 02 02 01 00 01 3f 20 00", "10 02 01 3f 02 01 00 20 00"),
        // The last byte decides: R AND Q before R AND S.
        ("10 02 03 01 02 01 03 03 01 02 01 01 20 00", "10 02 03 01 02 01 01 03 01 02 01 03 20 00"),
        // Not the length: NOT NOT NOT NOT P before P AND Q, P AND NOT NOT P before Q AND P.
        ("10 02 03 01 00 01 01 02 02 02 02 01 00 20 00", "10 02 02 02 02 02 01 00 03 01 00 01 01 20 00"),
        ("10 00 20 02 03 01 01 01 00 03 01 00 02 02 01 00", "10 00 20 02 03 01 00 02 02 01 00 03 01 01 01 00"),
        // A formula that ends with the bytes of another is still another one.
        ("10 03 02 02 01 00 02 01 00 01 00 20 00", "10 03 01 00 02 01 00 02 02 01 00 20 00"),
        // Letters by their numbers, on both sides of 31 and 32.
        ("10 00 20 04 01 3f 01 20 01 1f 01 00", "10 00 20 04 01 00 01 1f 01 20 01 3f"),
        // All five connectives, the highest first.
        (
            "10 05 06 01 00 01 01 05 01 00 01 01 04 01 00 01 01 03 01 00 01 01 02 01 00 20 00",
            "10 05 02 01 00 03 01 00 01 01 04 01 00 01 01 05 01 00 01 01 06 01 00 01 01 20 00",
        ),
        // Equal ones apart from each other: Q, P, Q, P, P.
        ("10 05 01 01 01 00 01 01 01 00 01 00 20 00", "10 02 01 00 01 01 20 00"),
        // True in the same states, but two formulas; the parts of a formula keep their order.
        ("10 02 03 01 01 01 00 03 01 00 01 01 20 00", "10 02 03 01 00 01 01 03 01 01 01 00 20 00"),
        ("10 01 03 01 01 01 00 20 01 04 01 01 01 00", "10 01 03 01 01 01 00 20 01 04 01 01 01 00"),
        // Both sides at once: NOT Q, P, NOT Q on the left; R OR P, P, P on the right.
        (
            "10 03 02 01 01 01 00 02 01 01 20 03 04 01 02 01 00 01 00 01 00",
            "10 02 01 00 02 01 01 20 02 01 00 04 01 02 01 00",
        ),
    ] {
        assert_eq!(spell(&hex(question)), hex(spelling), "{}", question);
        assert_eq!(spell(&hex(spelling)), hex(spelling), "{}", spelling);
        assert_eq!(spelling::spell(&hex(question), QUESTION_MAX).2, hex(spelling), "{}", question);
    }
}

// Orders and repeats, one by one

/// So many of sixteen formulas moved from the front to the end; from 16 on, also read from the last one.
fn turned(side: &Side, by: usize) -> Side {
    let mut turned = side.clone();
    turned.rotate_left(by % 16);
    if by >= 16 {
        turned.reverse();
    }
    turned
}

/// The longest question, with sixteen formulas on each side: in order, in the opposite order, turned and shuffled.
#[test]
fn sixteen_on_each_side() {
    let sides = [AND, OR].map(|connective| -> Side {
        // Ascending: the second byte is 01 in the first eight, and the connective in the others.
        let short = (0..8).map(|k| vec![connective, LETTER, 9 + k, LETTER, 0]);
        let long = (0..8).map(|k| vec![connective, connective, LETTER, 9 + k, LETTER, 0, LETTER, 0]);
        short.chain(long).collect()
    });
    let longest = with_formulas(&sides[0], &sides[1]);
    assert_eq!((longest.len(), calls::width(&longest).1[1]), (QUESTION_MAX, 48));
    assert_eq!(spell(&longest), longest);
    for (left, right) in (0..32).flat_map(|left| (0..32).map(move |right| (left, right))) {
        let question = with_formulas(&turned(&sides[0], left), &turned(&sides[1], right));
        assert_eq!(calls::spell(&question, QUESTION_MAX), (0, [212], longest.clone()), "{:02x?}", question);
        assert_eq!(calls::spell(&question, QUESTION_MAX - 1), (11, [212], vec![]), "{:02x?}", question);
    }
    let mut rng = Prng::new(61);
    for _ in 0..2_000 {
        assert_eq!(spell(&arranged(&mut rng, &sides, 0)), longest);
    }
}

/// Sixteen equal formulas become one, and the count is lowered, on each side.
#[test]
fn sixteen_equal_ones() {
    for formula in ["01 05", "01 3f", "02 01 00", "02 02 02 01 00", "06 04 01 07 01 00 01 07"].map(hex) {
        let (one, sixteen) = (vec![formula.clone()], vec![formula; 16]);
        assert_eq!(spell(&with_formulas(&sixteen, &[])), with_formulas(&one, &[]));
        assert_eq!(spell(&with_formulas(&[], &sixteen)), with_formulas(&[], &one));
    }
    let letters = vec![vec![LETTER, 5]; 16];
    let question = with_formulas(&letters, &letters);
    assert_eq!((question.len(), spell(&question)), (68, hex("10 01 01 05 20 01 01 05")));
    // Fifteen equal ones and a lower or higher one, wherever it stands.
    for place in 0..16 {
        for (other, spelling) in [(4, "10 02 01 04 01 05 20 01 01 05"), (6, "10 02 01 05 01 06 20 01 01 05")] {
            let mut left = letters.clone();
            left[place] = vec![LETTER, other];
            assert_eq!(spell(&with_formulas(&left, &letters)), hex(spelling), "place {}", place);
        }
    }
}

/// The formulas in one of their orders: each order has a number, from 0 on.
fn in_order(formulas: &[Vec<u8>], mut number: usize) -> Side {
    let mut rest = formulas.to_vec();
    let mut side = vec![];
    while !rest.is_empty() {
        let at = number % rest.len();
        number /= rest.len();
        side.push(rest.remove(at));
    }
    side
}

/// Five formulas, in every order on the left with every order on the right.
#[test]
fn every_order() {
    let five = ["01 3f", "02 01 00", "02 02 01 00", "03 01 00 02 01 3f", "06 01 00 01 00"].map(hex);
    let expected = with_formulas(&five, &five);
    let orders: BTreeSet<Side> = (0..120).map(|number| in_order(&five, number)).collect();
    assert_eq!(orders.len(), 120);
    for (left, right) in orders.iter().flat_map(|left| orders.iter().map(move |right| (left, right))) {
        assert_eq!(spell(&with_formulas(left, right)), expected, "{:02x?} and {:02x?}", left, right);
    }
}

/// Every formula with at most two connectives, over the lowest letter and the highest.
fn small_formulas() -> Side {
    let mut by_connectives: Vec<Side> = vec![vec![vec![LETTER, 0], vec![LETTER, LETTERS - 1]]];
    for connectives in 1..=2 {
        let mut made: Side = by_connectives[connectives - 1].iter().map(|part| [&[NOT], &part[..]].concat()).collect();
        for first in 0..connectives {
            let (firsts, seconds) = (&by_connectives[first], &by_connectives[connectives - 1 - first]);
            for (f, g) in firsts.iter().flat_map(|f| seconds.iter().map(move |g| (f, g))) {
                made.extend((AND..=EQUIV).map(|connective| [&[connective], &f[..], g].concat()));
            }
        }
        by_connectives.push(made);
    }
    by_connectives.concat()
}

/// Of two formulas, the one with the lower byte at the first place where they differ comes first.
#[test]
fn every_pair_of_small_formulas() {
    let all = small_formulas();
    let (none, one) = (2, 2 + 4 * 2 * 2);
    assert_eq!(all.len(), none + one + (one + 2 * 4 * none * one));
    for f in &all {
        for g in &all {
            let (pair, opposite) = ([f.clone(), g.clone()], [g.clone(), f.clone()]);
            let spelling = spell(&with_formulas(&pair, &opposite));
            // Neither is the beginning of the other: where they differ, there is a place that both have.
            let expected = match f.iter().zip(g).find(|(of_f, of_g)| of_f != of_g) {
                Some((of_f, of_g)) if of_f < of_g => with_formulas(&pair, &pair),
                Some(_) => with_formulas(&opposite, &opposite),
                None => with_formulas(&pair[..1], &pair[..1]),
            };
            assert_eq!(spelling, expected, "{:02x?} and {:02x?}", f, g);
        }
    }
}

/// Two long formulas that differ in many places: the first difference decides, though each later one says the opposite.
#[test]
fn the_first_difference_decides() {
    let mut rng = Prng::new(62);
    let mut seen = [0u64; 74];
    for round in 0..300 {
        // Two with 24 connectives are the longest; they have 74 bytes where none of these is NOT.
        let shape = Shape { letters: (1..LETTERS - 1).collect(), thrift: 0, apart: false, nots: round % 2 == 0 };
        let mut lower = vec![];
        questions::formula(&mut rng, &shape, 24, true, &mut lower);
        let letters = questions::letter_places(&lower);
        for at in 0..lower.len() {
            if !letters.contains(&at) && !(AND..=IMPLIES).contains(&lower[at]) {
                continue;
            }
            let mut higher = lower.clone();
            higher[at] += 1;
            letters.iter().filter(|&&place| place > at).for_each(|&place| higher[place] = 0);
            let due = [lower.clone(), higher.clone()];
            let opposite = [higher, lower.clone()];
            for pair in [&due, &opposite] {
                assert_eq!(spell(&with_formulas(pair, &[])), with_formulas(&due, &[]), "place {}", at);
                assert_eq!(spell(&with_formulas(&[], pair)), with_formulas(&[], &due), "place {}", at);
            }
            seen[at] += 1;
        }
    }
    assert!(seen[..64].iter().all(|&count| count > 20) && seen[73] > 100, "{:?}", seen);
}

// The same sets, and others

/// Every question with up to four formulas on a side, drawn from three: as many spellings as there are pairs of sets.
#[test]
fn alike_exactly_if_the_sets_are() {
    let pool = ["03 01 00 01 01", "01 00", "02 01 00"].map(hex);
    let drawn =
        |count: u32, number: usize| -> Side { (0..count).map(|i| pool[number / 3usize.pow(i) % 3].clone()).collect() };
    let sides: Vec<Side> =
        (0..=4).flat_map(|count| (0..3usize.pow(count)).map(move |number| drawn(count, number))).collect();
    assert_eq!(sides.len(), 1 + 3 + 9 + 27 + 81);
    let mut by_spelling = BTreeMap::new();
    for (left, right) in sides.iter().flat_map(|left| sides.iter().map(move |right| (left, right))) {
        let sets = [left, right].map(|side| pool.each_ref().map(|formula| side.contains(formula)));
        let others = by_spelling.entry(spell(&with_formulas(left, right))).or_insert(sets);
        assert_eq!(*others, sets, "{:02x?} and {:02x?}", left, right);
    }
    assert_eq!(by_spelling.len(), 8 * 8);
}

/// Random sets of formulas, in several orders and with repeats up to the limits.
#[test]
fn the_same_sets_spell_alike() {
    let mut rng = Prng::new(63);
    let (mut full, mut most_connectives, mut longer, mut moved) = (0, 0, 0, 0);
    for _ in 0..6_000 {
        let question = some_question(&mut rng);
        let formulas = different(&question);
        let expected = with_formulas(&formulas[0], &formulas[1]);
        assert_eq!(spell(&question), expected, "{:02x?}", question);
        for more in [0, 2, 60] {
            let other = arranged(&mut rng, &formulas, more);
            assert_eq!(spell(&other), expected, "{:02x?} and {:02x?}", question, other);
            let read = tree::read(&other).unwrap();
            let repeats = other.len() > expected.len();
            full += u32::from(read.left.len() == 16 && read.right.len() == 16 && repeats);
            most_connectives += u32::from(read.connectives == 48 && repeats);
            longer += u32::from(repeats);
            moved += u32::from(!repeats && other != expected);
        }
    }
    let seen = (full, most_connectives, longer, moved);
    assert!(full > 500 && most_connectives > 1_000 && longer > 6_000 && moved > 3_000, "{:?}", seen);
}

fn one<'s>(rng: &mut Prng, side: &'s mut Side) -> &'s mut Vec<u8> {
    let at = rng.below(side.len());
    &mut side[at]
}

type Change = fn(&mut Prng, [&mut Side; 2]);

/// Ways to get other sets of formulas from those of two sides that are not empty. Now and then they come out the same.
const CHANGES: [(&str, Change); 9] = [
    ("the sides exchanged", |_, [here, there]| std::mem::swap(here, there)),
    ("one moved to the other side", |rng, [here, there]| there.push(here.remove(rng.below(here.len())))),
    ("one of the other side put in", |rng, [here, there]| here.push(one(rng, there).clone())),
    ("one taken out", |rng, [here, _]| drop(here.remove(rng.below(here.len())))),
    ("a letter put in", |rng, [here, _]| here.push(vec![LETTER, rng.below(LETTERS.into()) as u8])),
    ("another letter in one", |rng, [here, _]| {
        let formula = one(rng, here);
        let place = rng.pick(&questions::letter_places(formula));
        formula[place] ^= 1 << rng.below(6);
    }),
    ("another connective in one", |rng, [here, _]| {
        let formula = one(rng, here);
        if formula[0] >= AND {
            formula[0] = rng.within(AND.into(), EQUIV.into()) as u8;
        }
    }),
    ("the parts of one exchanged", |rng, [here, _]| {
        let formula = one(rng, here);
        if formula[0] >= AND {
            let (f, g) = order::first_formula(&formula[1..]);
            *formula = [&formula[..1], g, f].concat();
        }
    }),
    ("NOT NOT before one", |rng, [here, _]| drop(one(rng, here).splice(0..0, [NOT, NOT]))),
];

/// Random sets of formulas and others that differ a little, both in random orders and with repeats.
#[test]
fn other_sets_spell_otherwise() {
    let mut rng = Prng::new(64);
    let mut seen = [0u32; CHANGES.len()];
    for _ in 0..6_000 {
        let question = some_question(&mut rng);
        let formulas = different(&question);
        if formulas.iter().any(Vec::is_empty) {
            continue;
        }
        for (way, (name, change)) in CHANGES.iter().enumerate() {
            let mut others = formulas.clone();
            let [left, right] = &mut others;
            let sides = if rng.chance(50) { [left, right] } else { [right, left] };
            change(&mut rng, sides);
            let same = (0..2).all(|side| BTreeSet::from_iter(&others[side]) == BTreeSet::from_iter(&formulas[side]));
            if same || tree::read(&with_formulas(&others[0], &others[1])).is_err() {
                continue;
            }
            let other = arranged(&mut rng, &others, 3);
            assert_ne!(spell(&other), spell(&question), "{}: {:02x?} and {:02x?}", name, question, other);
            seen[way] += 1;
        }
    }
    assert!(seen.iter().all(|&count| count > 500), "{:?}", seen);
}

// What stays, and what does not

/// A spelling is accepted, is not longer than its question, has the same formulas in order, and is its own spelling.
#[test]
fn a_spelling_is_its_own() {
    let mut rng = Prng::new(65);
    let mut shorter = 0;
    for _ in 0..20_000 {
        let question = some_question(&mut rng);
        let spelling = spell(&question);
        assert!(spelling.len() <= question.len(), "{:02x?}", question);
        assert_eq!(spell(&spelling), spelling, "{:02x?}", question);
        assert!(tree::read(&spelling).is_ok() && truth::read(&spelling).is_ok(), "{:02x?}", question);
        shorter += u32::from(spelling.len() < question.len());
        for side in [gekunday::Side::Left, gekunday::Side::Right] {
            // The library's own word for the formulas.
            let handed = |bytes| -> Vec<&[u8]> { (0..).map_while(|at| gekunday::formula(bytes, side, at)).collect() };
            let (before, after) = (handed(&question), handed(&spelling));
            assert!(after.windows(2).all(|pair| pair[0] < pair[1]), "{:02x?}", spelling);
            assert!(before.iter().all(|formula| after.contains(formula)), "{:02x?}", question);
            assert!(after.iter().all(|formula| before.contains(formula)), "{:02x?}", question);
        }
    }
    assert!(shorter > 5_000, "{}", shorter);
}

/// Truth in every state, the refuting states and whether a question is a theorem.
#[test]
fn truth_stays() {
    let mut rng = Prng::new(66);
    let (mut theorems, mut refuted, mut tables, mut many_letters) = (0, 0, 0, 0);
    for _ in 0..5_000 {
        let question = some_question(&mut rng);
        let spelling = spell(&question);
        if spelling == question {
            continue;
        }
        let [before, after] = [&question, &spelling].map(|bytes| truth::read(bytes).unwrap());
        assert_eq!(before.letters(), after.letters(), "{:02x?}", question);
        for state in [0, u64::MAX, rng.next(), rng.next() & rng.next(), rng.next() | rng.next()] {
            assert_eq!(before.true_in(state), after.true_in(state), "{:02x?} in state {}", question, state);
        }
        let listed = calls::states(&question, 1_024);
        assert_eq!(calls::states(&spelling, 1_024), listed, "{:02x?}", question);
        many_letters += u32::from(listed.0 == 12);
        if before.letters().len() <= 12 {
            assert_eq!(before.refuting(), after.refuting(), "{:02x?}", question);
            tables += 1;
        }
        let [before, after] = [&question, &spelling].map(|bytes| calls::decide(bytes, 5_000));
        if let ((0, [kind, ..]), (0, [of_spelling, ..])) = (before, after) {
            assert_eq!(kind, of_spelling, "{:02x?}", question);
            theorems += u32::from(kind == 0);
            refuted += u32::from(kind == 1);
        }
    }
    let seen = (theorems, refuted, tables, many_letters);
    assert!(theorems > 1_000 && refuted > 500 && tables > 1_500 && many_letters > 500, "{:?}", seen);
}

/// A repeat gone: P OR Q twice on the left has the width 2 times 2 and takes two reductions to the open sequent P, P.
/// Its spelling has one of the two.
#[test]
fn width_and_connectives_do_not_stay() {
    let question = hex("10 02 04 01 00 01 01 04 01 00 01 01 20 00");
    let spelling = hex("10 01 04 01 00 01 01 20 00");
    assert_eq!(spell(&question), spelling);
    assert_eq!(calls::width(&question), (0, [4, 2]));
    assert_eq!(calls::width(&spelling), (0, [2, 1]));
    assert_eq!(calls::decide(&question, 9), (0, [1, 1, 2, 0]));
    assert_eq!(calls::decide(&spelling, 9), (0, [1, 1, 1, 0]));
}

/// Another order: P OR Q and R AND NOT R on the left. With the OR first, both its premises take the other apart: 1 and
/// two times 2 reductions, 2 closings. With the AND first, R closes after 2.
#[test]
fn counts_and_derivations_do_not_stay() {
    let question = hex("10 02 04 01 00 01 01 03 01 02 02 01 02 20 00");
    let spelling = hex("10 02 03 01 02 02 01 02 04 01 00 01 01 20 00");
    assert_eq!(spell(&question), spelling);
    assert_eq!((calls::width(&question), calls::width(&spelling)), ((0, [2, 3]), (0, [2, 3])));
    assert_eq!(calls::decide(&question, 9), (0, [0, 0, 5, 2]));
    assert_eq!(calls::decide(&spelling, 9), (0, [0, 0, 2, 1]));
    // A budget that is enough for one only.
    assert_eq!((calls::decide(&question, 2).0, calls::decide(&spelling, 2).0), (9, 0));
    let derivation = hex("54 00 53 01 52 02 41 02 53 01 52 02 41 02");
    let of_spelling = hex("53 00 52 01 41 02");
    assert_eq!(calls::derive(&question, 9, 20), (0, [14, 5, 2], derivation.clone()));
    assert_eq!(calls::derive(&spelling, 9, 20), (0, [6, 2, 1], of_spelling.clone()));
    // Each passes for its own bytes: at place 0 the other has another connective.
    assert_eq!((calls::check(&question, &derivation), calls::check(&spelling, &derivation)), ((0, [0]), (23, [0])));
    assert_eq!((calls::check(&spelling, &of_spelling), calls::check(&question, &of_spelling)), ((0, [0]), (23, [0])));
    // The place of R AND NOT R.
    assert_eq!((calls::formula(&question, 0, 1), calls::formula(&spelling, 0, 0)), ((0, [7, 6]), (0, [2, 6])));
}

/// The state that is named: NOT P OR R and P OR Q on the left. Reduced in this order, the first open sequent has Q on
/// the left and P on the right; in the other order it has P and R on the left. The list of refuting states stays.
#[test]
fn the_state_named_does_not_stay() {
    let question = hex("10 02 04 02 01 00 01 02 04 01 00 01 01 20 00");
    let spelling = hex("10 02 04 01 00 01 01 04 02 01 00 01 02 20 00");
    assert_eq!(spell(&question), spelling);
    assert_eq!(calls::decide(&question, 9), (0, [1, 0b010, 3, 1]));
    assert_eq!(calls::decide(&spelling, 9), (0, [1, 0b101, 3, 1]));
    for bytes in [question, spelling] {
        assert_eq!(calls::states(&bytes, 8), (0, [4], vec![0b010, 0b101, 0b110, 0b111]));
    }
}

// Rooms and refusals

/// Every room up to some bytes more than the question has. Each byte of the buffer is looked at: see
/// `common/calls.rs`.
#[test]
fn every_room() {
    let mut rng = Prng::new(67);
    let mut numbers = [0u64; 12];
    for _ in 0..400 {
        let question = some_question(&mut rng);
        let spelling = spell(&question);
        let length = spelling.len();
        for room in (0..question.len() + 8).chain([QUESTION_MAX, 1_000]) {
            let due = if room < length { (11, vec![]) } else { (0, spelling.clone()) };
            let (number, [word], written) = calls::spell(&question, room);
            assert_eq!((number, written), due, "{:02x?} with room {}", question, room);
            assert_eq!(word, length as u64, "{:02x?} with room {}", question, room);
            numbers[number as usize] += 1;
        }
    }
    assert!(numbers[0] > 5_000 && numbers[11] > 20_000, "{:?}", numbers);
}

/// Every byte, every value: number, place and bytes as the other spelling has them.
#[test]
fn every_byte_takes_every_value() {
    let mut rng = Prng::new(68);
    let mut numbers = [0u64; 12];
    for round in 0..60 {
        let question = match round % 6 {
            0 => questions::near_limits(&mut rng),
            1 | 2 => questions::repeated(&mut rng),
            _ => questions::short(&mut rng),
        };
        let mut damaged = question.clone();
        for at in 0..question.len() {
            for value in 0..=255 {
                damaged[at] = value;
                let room = question.len() - rng.pick(&[0, 0, 1, 4]);
                let expected = spelling::spell(&damaged, room);
                numbers[expected.0 as usize] += 1;
                assert_eq!(calls::spell(&damaged, room), expected, "spell {:02x?} with room {}", damaged, room);
            }
            damaged[at] = question[at];
        }
    }
    // 1 comes with more bytes.
    for number in [0, 2, 3, 4, 5, 6, 7, 11] {
        assert!(numbers[number] > 100, "{} is rare: {:?}", number, numbers);
    }
    for bytes in [vec![LETTER; 213], [hex("10 00 20 00"), vec![0; 209]].concat()] {
        assert_eq!(calls::spell(&bytes, 300), (1, [212], vec![]));
    }
}

#[test]
fn why_nothing_was_spelled() {
    for (question, why, number, text) in [
        ("10 00", NotSpelled::Refused(Refusal::Cut(2)), 2, "refused: cut at 2"),
        ("10 00 20 00 00", NotSpelled::Refused(Refusal::LeftOver(4)), 7, "refused: left over at 4"),
        ("10 02 01 00 01 00 20 00", NotSpelled::NoSpace { needed: 6 }, 11, "no space: 6 bytes needed"),
    ] {
        let mut buffer = [0xee; 5];
        assert_eq!(gekunday::spell(&hex(question), &mut buffer), Err(why));
        assert_eq!((why.number(), why.to_string().as_str(), buffer), (number, text, [0xee; 5]));
    }
}
