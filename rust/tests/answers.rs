//! Answers that a program worked out which shares nothing with the library, nor with the programs in `common/`. The
//! library and those programs are both compared with them. One call a line:
//!
//!     OP QUESTION [OPERANDS] => NUMBER WORDS.. [kept WRITTEN]
//!
//! Bytes are hexadecimal and numbers decimal; states are parted by commas, and `-` stands for none. `kept` says that
//! the rest of the lent slice is as it was: each call here is watched for that (see `common/calls.rs`).
//!
//! | OP | call | operands | behind `=>` |
//! |---|---|---|---|
//! | D | `gekunday_decide` | budget | number, four words |
//! | W | `gekunday_width` | | number, two words |
//! | F | `gekunday_formula` | side, place | number, two words |
//! | V | `gekunday_derive` | budget, room | number, three words, `kept`, the derivation |
//! | K | `gekunday_check` | the derivation | number, place (0 where it passes) |
//! | S | `gekunday_states` | room | number, word, `kept`, the states |
//! | E | `gekunday_spell` | room | number, word, `kept`, the spelling |
//! | C | `gekunday_clauses` | | number, three words |

mod common;

use common::{calls, clauses, order, spelling, tree, truth};
use std::fmt::{Debug, Display};
use std::str::FromStr;

/// The library's answer to the call on a line, written as behind `=>`.
fn library(call: &[&str]) -> String {
    match *call {
        ["D", question, budget] => line(calls::decide(&bytes(question), decimal(budget))),
        ["W", question] => line(calls::width(&bytes(question))),
        ["F", question, side, place] => line(calls::formula(&bytes(question), decimal(side), decimal(place))),
        ["V", question, budget, room] => {
            let (number, words, written) = calls::derive(&bytes(question), decimal(budget), decimal(room));
            format!("{number} {} kept {}", joined(&words, " "), hexadecimal(&written))
        }
        ["K", question, derivation] => line(calls::check(&bytes(question), &bytes(derivation))),
        ["S", question, room] => {
            let (number, [word], states) = calls::states(&bytes(question), decimal(room));
            format!("{number} {word} kept {}", joined(&states, ","))
        }
        ["E", question, room] => {
            let (number, [word], written) = calls::spell(&bytes(question), decimal(room));
            format!("{number} {word} kept {}", hexadecimal(&written))
        }
        ["C", question] => line(calls::clauses(&bytes(question))),
        _ => panic!("no such call: {call:?}"),
    }
}

/// The same answer from the programs written apart from the library.
fn apart(call: &[&str]) -> String {
    let question = bytes(call[1]);
    let read = tree::read(&question);
    match (call, &read) {
        (["D", _, budget], Ok(read)) => line(grown(read, budget).decided(decimal(budget))),
        (["D", ..], Err((number, place))) => format!("{number} {place} 0 0 0"),
        (["W", _], Ok(read)) => format!("0 {} {}", read.width(), read.connectives),
        (["W", _], Err((number, place))) => format!("{number} {place} 0"),
        (["F", _, side, place], Ok(read)) => formula(read, decimal(side), decimal(place)),
        (["F", ..], Err(_)) => "0 0 0".to_string(),
        (["V", _, budget, room], Ok(read)) => {
            let tree = grown(read, budget);
            let (number, words) = tree.derived(decimal(budget), decimal(room));
            let written = if number == 0 { &tree.derivation[..] } else { &[] };
            format!("{number} {} kept {}", joined(&words, " "), hexadecimal(written))
        }
        (["V", ..], Err((number, place))) => format!("{number} {place} 0 0 kept -"),
        (["K", _, derivation], Ok(_)) => {
            let (number, place) = order::check(&question, &bytes(derivation));
            format!("{number} {place}")
        }
        (["K", ..], Err((number, place))) => format!("{number} {place}"),
        (["S", _, room], _) => {
            let (number, [word], states) = truth::states(&question, decimal(room));
            format!("{number} {word} kept {}", joined(&states, ","))
        }
        (["E", _, room], _) => {
            let (number, [word], written) = spelling::spell(&question, decimal(room));
            format!("{number} {word} kept {}", hexadecimal(&written))
        }
        (["C", _], _) => line(clauses::clauses(&question)),
        _ => panic!("no such call: {call:?}"),
    }
}

/// The formula at a place of side 0, the left, or 1, the right.
fn formula(question: &tree::Question, side: usize, place: usize) -> String {
    match [&question.left, &question.right].get(side).and_then(|side| side.get(place)) {
        Some(formula) => format!("0 {} {}", formula.start, formula.length),
        None => "0 0 0".to_string(),
    }
}

/// The tree as far as this budget goes.
fn grown(question: &tree::Question, budget: &str) -> tree::Tree {
    question.tree(decimal::<u64>(budget).min(1_000_000) as usize)
}

/// Compares all lines. Answers their number.
fn compare(lines: &str) -> usize {
    let mut count = 0;
    for line in lines.lines() {
        let (call, expected) = line.split_once(" => ").unwrap_or_else(|| panic!("no answer: {line}"));
        let call: Vec<&str> = call.split(' ').collect();
        assert_eq!(apart(&call), expected, "the other programs, on {line}");
        assert_eq!(library(&call), expected, "{line}");
        count += 1;
    }
    count
}

fn bytes(text: &str) -> Vec<u8> {
    if text == "-" {
        return vec![];
    }
    assert!(text.len() % 2 == 0, "half a byte: {text}");
    (0..text.len()).step_by(2).map(|at| u8::from_str_radix(&text[at..at + 2], 16).unwrap()).collect()
}

fn decimal<T: FromStr<Err: Debug>>(text: &str) -> T {
    text.parse().unwrap()
}

/// A number and its words.
fn line((number, words): (u32, impl AsRef<[u64]>)) -> String {
    format!("{number} {}", joined(words.as_ref(), " "))
}

/// The numbers, parted by `by`.
fn joined(numbers: &[impl Display], by: &str) -> String {
    if numbers.is_empty() {
        return "-".to_string();
    }
    numbers.iter().map(|number| number.to_string()).collect::<Vec<_>>().join(by)
}

fn hexadecimal(bytes: &[u8]) -> String {
    if bytes.is_empty() {
        return "-".to_string();
    }
    bytes.iter().map(|byte| format!("{byte:02x}")).collect()
}

/// Line 466 numbers a letter 32. It had 5 at place 3 when letters went to 31; now 3 at place 4, where 20 is due.
#[test]
fn refuting_states() {
    assert_eq!(compare(include_str!("answers/a.txt")), 500);
}

#[test]
fn equal_formulas() {
    assert_eq!(compare(include_str!("answers/c.txt")), 1_000);
}

#[test]
fn sixty_four_letters() {
    assert_eq!(compare(include_str!("answers/d.txt")), 900);
}

#[test]
fn standard_spellings() {
    assert_eq!(compare(include_str!("answers/e.txt")), 500);
}

#[test]
fn rules_as_clauses() {
    assert_eq!(compare(include_str!("answers/f.txt")), 700);
}

/// Deciding and deriving, once no call answers 8.
#[test]
fn decided_and_derived() {
    assert_eq!(compare(include_str!("answers/g.txt")), 500);
}
