//! Derivations: damaged in every byte, cut and extended, and made in another order than ours, against a checker written
//! apart from the library.

mod common;

use common::order::{self, Found};
use common::prng::Prng;
use common::questions::{IMPLIES, LETTER, NOT, OR};
use common::{calls, questions, tree, HIGH, LETTERS};

const COMMANDS: [u8; 13] = [0, 0x41, 0x42, 0x52, 0x53, 0x54, 0x55, 0x56, 0x62, 0x63, 0x64, 0x65, 0x66];

/// The library's checker and the other one, on the same bytes.
fn agree(question: &[u8], derivation: &[u8]) -> u32 {
    let expected = order::check(question, derivation);
    let (number, [place]) = calls::check(question, derivation);
    assert_eq!((number, place), expected, "check of {:02x?} with {:02x?}", question, derivation);
    number
}

/// A theorem and our derivation of it, in at most `limit` reductions; with a closing on equal formulas, if asked for.
fn proved(rng: &mut Prng, most: usize, limit: usize, equal: bool) -> (Vec<u8>, Vec<u8>) {
    loop {
        let question = match rng.below(10) {
            0..=3 => questions::repeated(rng),
            4..=5 => questions::near_limits(rng),
            _ => questions::theorem(rng, most),
        };
        let tree = tree::read(&question).unwrap().tree(limit);
        let wanted = if equal { tree.equals.closings > 0 } else { tree.reductions > 0 };
        if tree.end == tree::End::Theorem && wanted {
            let (number, _, derivation) = calls::derive(&question, u64::MAX, tree.derivation.len());
            assert_eq!((number, &derivation), (0, &tree.derivation));
            return (question, derivation);
        }
    }
}

/// Every byte, every value. Answers how often each number came.
fn every_byte(seed: u64, count: u64, equal: bool) -> [u64; 27] {
    let mut rng = Prng::new(seed);
    let mut numbers = [0; 27];
    for _ in 0..count {
        let (question, derivation) = proved(&mut rng, 6, 30, equal);
        let mut damaged = derivation.clone();
        for at in 0..derivation.len() {
            for value in 0..=255 {
                damaged[at] = value;
                numbers[agree(&question, &damaged) as usize] += 1;
            }
            damaged[at] = derivation[at];
        }
    }
    numbers
}

#[test]
fn every_byte_takes_every_value() {
    let numbers = every_byte(11, 60, false);
    // One changed byte seldom leaves a sequent waiting or bytes over: 20 and 25 come with cuts and more bytes, below.
    for number in [0, 21, 22, 23, 24] {
        assert!(numbers[number] > 1_000, "{} is rare: {:?}", number, numbers);
    }
}

/// The same for derivations with a closing on equal formulas.
#[test]
fn every_byte_where_equal_formulas_close() {
    let numbers = every_byte(16, 150, true);
    for number in [0, 21, 22, 23, 24, 26] {
        assert!(numbers[number] > 1_000, "{} is rare: {:?}", number, numbers);
    }
    // A command that becomes 42 takes a third byte.
    assert!(numbers[20] > 100, "{:?}", numbers);
}

/// Derivations with a closing on equal formulas, cut at every length and with bytes behind them; and each such closing
/// with all pairs of places, some of them not there.
#[test]
fn closings_on_equal_formulas() {
    let mut rng = Prng::new(17);
    let mut numbers = [0u64; 27];
    for _ in 0..1_500 {
        let (question, derivation) = proved(&mut rng, 8, 40, true);
        let length = derivation.len();
        for end in 0..length {
            assert_eq!(agree(&question, &derivation[..end]), 20);
        }
        for more in 1..=4 {
            let extended = [&derivation[..], &(0..more).map(|_| rng.byte()).collect::<Vec<_>>()].concat();
            assert_eq!(calls::check(&question, &extended), (25, [length as u64]));
            assert_eq!(agree(&question, &[&derivation[..], &[0x42, 0, 0, 0][..more]].concat()), 25);
        }
        let mut at = 0;
        for command in order::commands(&derivation) {
            if command[0] == 0x42 {
                let mut damaged = derivation.clone();
                for (left, right) in (0..12).flat_map(|left| (0..12).map(move |right| (left, right))) {
                    damaged[at + 1..at + 3].copy_from_slice(&[left, right]);
                    numbers[agree(&question, &damaged) as usize] += 1;
                }
            }
            at += command.len();
        }
    }
    for number in [0, 22, 26] {
        assert!(numbers[number] > 3_000, "{} is rare: {:?}", number, numbers);
    }
}

/// The length is 2 for each reduction and each closing on a letter, and 3 for each closing on equal formulas.
#[test]
fn bytes_of_each_command() {
    let mut rng = Prng::new(18);
    let (mut on_letters, mut on_equals, mut on_high, mut on_last) = (0, 0, 0, 0);
    for _ in 0..20_000 {
        let question = questions::repeated(&mut rng);
        let (number, [length, reductions, closings], derivation) = calls::derive(&question, 300, 4_096);
        if number != 0 {
            continue;
        }
        let count = |from: u8, to: u8| {
            order::commands(&derivation).iter().filter(|command| (from..=to).contains(&command[0])).count() as u64
        };
        let (letters, equals) = (count(0x41, 0x41), count(0x42, 0x42));
        assert_eq!((count(0x52, 0x66), letters + equals), (reductions, closings), "{:02x?}", question);
        assert_eq!(length, 2 * (reductions + letters) + 3 * equals, "{:02x?}", question);
        assert_eq!(length, derivation.len() as u64, "{:02x?}", question);
        on_letters += letters;
        on_equals += equals;
        let on = |letter: u8| order::commands(&derivation).contains(&&[0x41, letter][..]);
        on_high += u32::from((HIGH..LETTERS).any(on));
        on_last += u32::from(on(LETTERS - 1));
    }
    assert!(on_letters > 10_000 && on_equals > 10_000, "{} {}", on_letters, on_equals);
    assert!(on_high > 1_000 && on_last > 100, "{} {}", on_high, on_last);
}

/// Every byte, some telling values; every cut; a byte less and a byte more.
fn damage_bytes(derivation: &[u8], rng: &mut Prng, mut see: impl FnMut(&[u8])) {
    for at in 0..derivation.len() {
        let byte = derivation[at];
        let telling = [
            byte.wrapping_add(1),
            byte.wrapping_sub(1),
            byte ^ 0x30,
            byte ^ HIGH,
            byte ^ 1 << rng.below(8),
            rng.byte(),
            rng.pick(&COMMANDS),
        ];
        let mut damaged = derivation.to_vec();
        for value in telling {
            damaged[at] = value;
            see(&damaged);
        }
        see(&derivation[..at]);
        let mut without = derivation.to_vec();
        without.remove(at);
        see(&without);
        let mut more = derivation.to_vec();
        more.insert(at, rng.byte());
        see(&more);
    }
}

/// Commands exchanged, doubled and left out.
fn damage_commands(derivation: &[u8], rng: &mut Prng, mut see: impl FnMut(&[u8])) {
    let commands = order::commands(derivation);
    for _ in 0..4 {
        let (one, other) = (rng.below(commands.len()), rng.below(commands.len()));
        let mut exchanged = commands.clone();
        exchanged.swap(one, other);
        see(&exchanged.concat());
        let mut doubled = commands.clone();
        doubled.insert(one, commands[other]);
        see(&doubled.concat());
        let mut left_out = commands.clone();
        left_out.remove(one);
        see(&left_out.concat());
    }
}

#[test]
fn damaged_derivations() {
    let mut rng = Prng::new(12);
    let mut numbers = [0u64; 27];
    for round in 0..2_500 {
        let (question, derivation) = proved(&mut rng, 10, 60, round % 4 == 0);
        let mut see = |derivation: &[u8]| numbers[agree(&question, derivation) as usize] += 1;
        see(&derivation);
        damage_bytes(&derivation, &mut rng, &mut see);
        damage_commands(&derivation, &mut rng, &mut see);
        for _ in 0..4 {
            let mut extended = derivation.clone();
            extended.extend((0..rng.within(1, 5)).map(|_| rng.byte()));
            assert_eq!(calls::check(&question, &extended), (25, [derivation.len() as u64]));
        }
    }
    for number in [0, 20, 21, 22, 23, 24, 25, 26] {
        assert!(numbers[number] > 300, "{} is rare: {:?}", number, numbers);
    }
}

/// Derivations that reduce in a random order pass, and damaged they fail as the other checker says. A question that the
/// random-order prover refutes is refuted by the library, too.
#[test]
fn derivations_in_another_order() {
    let mut rng = Prng::new(13);
    let (mut passed, mut others, mut on_equals, mut refuted) = (0, 0, 0, 0);
    for _ in 0..12_000 {
        let question = match rng.below(5) {
            0 => questions::short(&mut rng),
            1 => questions::near_limits(&mut rng),
            2 => questions::repeated(&mut rng),
            _ => questions::theorem(&mut rng, 9),
        };
        let ours = tree::read(&question).unwrap().tree(500);
        if ours.end == tree::End::Large {
            continue;
        }
        for _ in 0..2 {
            match order::prove(&question, &mut rng, 500) {
                Found::TooLarge => {}
                Found::Refuted => {
                    let (number, [refutes, ..]) = calls::decide(&question, u64::MAX);
                    assert_eq!((number, refutes), (0, 1), "{:02x?}", question);
                    refuted += 1;
                }
                Found::Derivation(derivation) => {
                    assert_eq!(calls::check(&question, &derivation), (0, [0]), "{:02x?}", question);
                    let (number, [refutes, ..]) = calls::decide(&question, u64::MAX);
                    assert_eq!((number, refutes), (0, 0), "{:02x?}", question);
                    passed += 1;
                    others += u32::from(derivation != ours.derivation);
                    on_equals += u32::from(order::commands(&derivation).iter().any(|command| command[0] == 0x42));
                    for _ in 0..6 {
                        let mut damaged = derivation.clone();
                        let at = rng.below(damaged.len());
                        damaged[at] = damaged[at].wrapping_add(rng.pick(&[1, 255, 0x10, 0xf0, 3, HIGH]));
                        agree(&question, &damaged);
                    }
                }
            }
        }
    }
    assert!(passed > 5_000 && others > 4_000 && refuted > 1_000, "{} {} {}", passed, others, refuted);
    assert!(on_equals > 2_000, "{}", on_equals);
}

/// A command with a letter of the question, or with places below 3.
fn command(rng: &mut Prng, question: &[u8]) -> Vec<u8> {
    let command = rng.pick(&COMMANDS[1..]);
    let place = |rng: &mut Prng| rng.below(3) as u8;
    match command {
        0x41 => vec![command, question[rng.pick(&questions::letter_places(question))]],
        0x42 => vec![command, place(rng), place(rng)],
        _ => vec![command, place(rng)],
    }
}

/// A derivation of one question put beside another one; and bytes that are no derivation at all.
#[test]
fn derivations_of_other_questions() {
    let mut rng = Prng::new(14);
    for _ in 0..4_000 {
        let (_, derivation) = proved(&mut rng, 5, 30, false);
        agree(&questions::short(&mut rng), &derivation);
        let (question, _) = proved(&mut rng, 5, 30, false);
        agree(&question, &derivation);
        let made: Vec<u8> = (0..rng.below(20)).flat_map(|_| command(&mut rng, &question)).collect();
        agree(&question, &made);
    }
}

/// Places over 65,535 are reported whole.
#[test]
fn places_in_a_long_derivation() {
    let mut rng = Prng::new(15);
    let question = questions::equiv_chains(11);
    let derivation = tree::read(&question).unwrap().tree(200_000).derivation;
    assert!(derivation.len() > 70_000, "{}", derivation.len());
    let length = derivation.len();
    assert_eq!(calls::check(&question, &derivation), (0, [0]));
    assert_eq!(calls::check(&question, &derivation[..length - 1]), (20, [length as u64 - 2]));
    assert_eq!(calls::check(&question, &[&derivation[..], &[0]].concat()), (25, [length as u64]));
    for number in 0..10 {
        let mut damaged = derivation.clone();
        let at = length - 1 - number * 7;
        damaged[at] = rng.byte();
        agree(&question, &damaged);
    }
    let mut damaged = derivation.clone();
    damaged[length - 2] = 0;
    assert_eq!(calls::check(&question, &damaged), (21, [length as u64 - 2]));
}

/// The same behind many closings on equal formulas: OR over letter 1 on the left makes 5 to the power 6 copies of what
/// follows, NOT P IMPLIES NOT P on the right.
#[test]
fn places_behind_equal_formulas() {
    let copies = [&[OR; 4][..], &[LETTER, 1].repeat(5)].concat().repeat(6);
    let question = [&[0x10, 6], &copies[..], &[0x20, 1, IMPLIES, NOT, LETTER, 0, NOT, LETTER, 0]].concat();
    let leaves = 5u64.pow(6);
    let length = 2 * (leaves - 1) + 5 * leaves;
    let (number, words, derivation) = calls::derive(&question, u64::MAX, 200_000);
    assert_eq!((number, words), (0, [length, 2 * leaves - 1, leaves]));
    let last = length as usize - 3;
    assert_eq!(derivation[last..], [0x42, 6, 0]);
    assert_eq!(agree(&question, &derivation), 0);
    let with_last = |bytes: &[u8]| calls::check(&question, &[&derivation[..last], bytes].concat());
    for (bytes, number) in
        [(&[][..], 20), (&[0x42], 20), (&[0x42, 6], 20), (&[0x43, 6, 0], 21), (&[0x42, 6, 1], 22), (&[0x42, 5, 0], 26)]
    {
        assert_eq!(with_last(bytes), (number, [last as u64]), "{:02x?}", bytes);
    }
    assert_eq!(with_last(&[0x42, 6, 0, 0]), (25, [length]));
}
