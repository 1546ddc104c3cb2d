//! How many formulas a sequent comes to hold when a question is reduced in any order: never more than its formulas and
//! connectives together, so never over 80, and 80 it can be. That is tried with the tree written apart from the library;
//! the library decides, derives and checks where there are 80.

mod common;

use common::prng::Prng;
use common::questions::{near_limits, with_formulas, AND, LETTER, OR};
use common::{calls, order, tree};

const ROOM: usize = 80;

/// These letters joined by a connective, each with all that follow it.
fn chain(connective: u8, letters: &[u8]) -> Vec<u8> {
    let (last, before) = letters.split_last().unwrap();
    let mut bytes: Vec<u8> = before.iter().flat_map(|&letter| [connective, LETTER, letter]).collect();
    bytes.extend([LETTER, *last]);
    bytes
}

/// 16 formulas of these 40 letters: by turns a chain of four and a single letter.
fn side(connective: u8, letters: &[u8]) -> Vec<Vec<u8>> {
    letters.chunks(5).flat_map(|five| [chain(connective, &five[..4]), chain(connective, &five[4..])]).collect()
}

/// 16 formulas a side and 48 connectives, none of which has two premises there, so every order ends at 80 letters. On the
/// left these are under 32, on the right from 32 on, but for the one that is given: the last chain's last, which the
/// library's last reduction puts there.
fn widest(last: u8) -> Vec<u8> {
    let lefts: Vec<u8> = (0..40).map(|k| k % 32).collect();
    let mut rights: Vec<u8> = lefts.iter().map(|k| k + 32).collect();
    rights[38] = last;
    with_formulas(&side(AND, &lefts), &side(OR, &rights))
}

/// The commands that reduce one side of it, the last chain first.
fn reduced(command: u8) -> Vec<u8> {
    (0..8).rev().flat_map(|n| (2 * n..2 * n + 3).flat_map(move |place| [command, place])).collect()
}

#[test]
fn eighty_formulas() {
    let mut rng = Prng::new(71);
    for last in 0..64 {
        let question = widest(last);
        let read = tree::read(&question).unwrap();
        assert_eq!((read.connectives, read.left.len(), read.right.len()), (48, 16, 16));
        for _ in 0..10 {
            assert_eq!(read.most_formulas(|choices| rng.below(choices)), ROOM);
        }
        let theorem = last < 32;
        let (kind, state, closings) = if theorem { (0, 0, 1) } else { (1, 0xffff_ffff, 0) };
        assert_eq!(calls::decide(&question, 48), (0, [kind, state, 48, closings]), "{}", last);
        assert_eq!(calls::decide(&question, 47), (9, [0, 0, 47, 0]), "{}", last);
        let tree = read.tree(48);
        let (number, words, written) = calls::derive(&question, 48, 98);
        assert_eq!((number, words), tree.derived(48, 98), "{}", last);
        assert_eq!(written, if theorem { tree.derivation } else { vec![] }, "{}", last);
        // the right side first, and each side from its last chain on
        let derivation = [&reduced(0x64)[..], &reduced(0x53), &[0x41, last]].concat();
        let (number, place) = if theorem { (0, 0) } else { (24, 96) };
        assert_eq!(calls::check(&question, &derivation), (number, [place]), "{}", last);
        assert_eq!(order::check(&question, &derivation), (number, place), "{}", last);
    }
}

/// The claim alone: this runs the tests' own tree.
#[test]
fn any_order() {
    let mut rng = Prng::new(73);
    let mut most = 0;
    for _ in 0..20_000 {
        let question = near_limits(&mut rng);
        let read = tree::read(&question).unwrap();
        let formulas = read.left.len() + read.right.len();
        let held = read.most_formulas(|choices| rng.below(choices));
        assert!(
            held <= formulas + read.connectives as usize && held <= ROOM,
            "{} formulas from {:02x?}",
            held,
            question
        );
        most = most.max(held);
    }
    assert!(most > 60, "{}", most);
}
