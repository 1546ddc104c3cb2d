//! The program `ask` from outside: bytes on its standard input, and the whole of what it prints. The text due is
//! spelled here, from the tree, the truth table and the checker written apart from the library; for the questions that
//! document 01 tries by hand, and at the limits, it also stands here word for word.
//!
//! The program is the file that GEKUNDAY_ASK names, by default ../target/bin/ask (`bash tools/build ask` proves and builds it).
//! Where there is none, the tests fail.
//!
//! `ask` has the one budget of 1,000,000, so document 01's case 10 (budgets 7 and 8) is in `cases.rs` only.

mod common;

use common::prng::Prng;
use common::questions::{self, AND, EQUIV, IMPLIES, LETTER, NOT, OR};
use common::tree::{self, End};
use common::{order, truth, LETTERS};
use std::io::{ErrorKind, Write};
use std::path::PathBuf;
use std::process::{Child, Command, Stdio};
use std::time::Duration;

const BUDGET: u64 = 1_000_000;
const ROOM: usize = 4_096;

// Running the program

fn program() -> PathBuf {
    match std::env::var_os("GEKUNDAY_ASK") {
        Some(named) => named.into(),
        None => concat!(env!("CARGO_MANIFEST_DIR"), "/../target/bin/ask").into(),
    }
}

fn start() -> Child {
    let program = program();
    match Command::new(&program).stdin(Stdio::piped()).stdout(Stdio::piped()).stderr(Stdio::piped()).spawn() {
        Ok(child) => child,
        Err(error) => {
            panic!("{}: {error}; run `bash tools/build ask` in the repository, or set GEKUNDAY_ASK", program.display())
        }
    }
}

/// Takes what the program printed, once it has ended: without fault, and without a word on standard error.
fn finish(child: Child, input: &[u8]) -> String {
    let done = child.wait_with_output().unwrap();
    assert!(done.status.success(), "{:02x?}: {}", input, done.status);
    assert!(done.stderr.is_empty(), "{:02x?}: {}", input, String::from_utf8_lossy(&done.stderr));
    String::from_utf8(done.stdout).unwrap()
}

fn ask(input: &[u8]) -> String {
    let mut child = start();
    match child.stdin.take().unwrap().write_all(input) {
        // The program has read enough to refuse, and may be gone.
        Err(error) if error.kind() == ErrorKind::BrokenPipe && input.len() > 212 => {}
        written => written.unwrap(),
    }
    finish(child, input)
}

// The text due

fn hexadecimal(bytes: &[u8]) -> String {
    bytes.iter().map(|byte| format!("{byte:02x}")).collect::<Vec<_>>().join(" ")
}

/// What the program has to print. Two readers agree on what is refused; a truth table confirms the verdict where the
/// letters are few, and a refuting state always; the other checker passes the derivation.
fn due(input: &[u8]) -> String {
    let table = truth::read(input);
    let question = match tree::read(input) {
        Ok(question) => question,
        Err((number, place)) => {
            assert_eq!(table.err(), Some((number, place)), "the two readers, on {:02x?}", input);
            return format!("refused {number} {place}\n");
        }
    };
    let table = table.unwrap_or_else(|refused| panic!("the two readers, on {:02x?}: {:?}", input, refused));
    let width = question.width();
    let tree = question.tree(BUDGET as usize);
    let (r, c) = (tree.reductions, tree.closings);
    let whole = tree.end != End::Large && table.letters().len() <= 12;
    assert!(!whole || table.true_everywhere() == (tree.end == End::Theorem), "the truth of {:02x?}", input);
    match tree.end {
        End::Large => format!("spent {r} {c} {width}\n"),
        End::Refuted(state) => {
            assert!(!table.true_in(state), "the state of {:02x?}", input);
            format!("refuted {state} {r} {c} {width}\n")
        }
        End::Theorem if tree.derivation.len() > ROOM => format!("theorem {r} {c} {width}\nno space\n"),
        End::Theorem => {
            assert_eq!(order::check(input, &tree.derivation), (0, 0), "the derivation of {:02x?}", input);
            format!("theorem {r} {c} {width}\n{}\n", hexadecimal(&tree.derivation))
        }
    }
}

/// The program prints what is due. Answers the first word of it.
fn agrees(input: &[u8]) -> String {
    let due = due(input);
    assert_eq!(ask(input), due, "{:02x?}", input);
    due.split(' ').next().unwrap().to_string()
}

/// The program prints exactly this text, and it is what is due.
fn prints(input: &[u8], text: &str) {
    assert_eq!(ask(input), text, "{:02x?}", input);
    assert_eq!(due(input), text, "{:02x?}", input);
}

fn hex(text: &str) -> Vec<u8> {
    text.split_whitespace().map(|byte| u8::from_str_radix(byte, 16).unwrap()).collect()
}

// Document 01's questions

#[test]
fn cases_1_to_11() {
    for (question, text) in [
        ("10 00 20 00", "refuted 0 0 0 1\n"),
        ("10 01 01 00 20 01 01 00", "theorem 0 1 1\n41 00\n"),
        ("10 01 01 00 20 01 01 01", "refuted 1 0 0 1\n"),
        ("10 01 02 04 01 00 01 01 20 01 02 01 00", "theorem 3 1 1\n52 00 62 00 64 00 41 00\n"),
        (
            "10 00 20 01 05 03 02 01 00 02 01 01 06 01 00 01 01",
            "theorem 5 2 2\n65 00 53 00 52 00 52 00 66 00 41 00 41 01\n",
        ),
        ("10 01 04 01 00 01 01 20 01 01 00", "refuted 2 1 1 2\n"),
        ("10 00 20 01 06 01 00 01 00", "theorem 1 2 2\n66 00 41 00 41 00\n"),
        ("10 01 06 01 00 01 00 20 00", "refuted 1 1 0 2\n"),
        ("10 00 20 01 05 03 05 01 00 04 01 01 01 02 05 01 02 01 03 05 03 01 00 01 01 01 03", "refuted 3 8 1 6\n"),
        // Case 10 is case 9 with another budget. Case 11 is as document 02, c, has it; 12, below, as d has it.
        ("10 01 03 01 00 01 01 20 01 03 01 00 01 01", "theorem 0 1 2\n42 00 00\n"),
    ] {
        prints(&hex(question), text);
    }
}

#[test]
fn case_12() {
    // Letter 63 is read, 64 gives 5.
    prints(&hex("10 01 01 3f 20 00"), "refuted 9223372036854775808 0 0 1\n");
    prints(&hex("10 00 20 01 01 3f"), "refuted 0 0 0 1\n");
    prints(&hex("10 01 01 3f 20 01 01 3f"), "theorem 0 1 1\n41 3f\n");
    prints(&hex("10 01 01 40 20 00"), "refused 5 3\n");
    prints(&hex("10 00 20 01 01 40"), "refused 5 5\n");
    // Letters 31 and 32 are read like any other.
    prints(&hex("10 01 01 1f 20 01 01 20"), "refuted 2147483648 0 0 1\n");
    prints(&hex("10 01 01 20 20 01 01 1f"), "refuted 4294967296 0 0 1\n");
    // 16 formulas on a side are read, 17 give 4.
    let (sixteen, seventeen) = ([LETTER, 3].repeat(16), [LETTER, 3].repeat(17));
    prints(&[&[0x10, 16], &sixteen[..], &[0x20, 0]].concat(), "refuted 8 0 0 1\n");
    prints(&[&[0x10, 0, 0x20, 16], &sixteen[..]].concat(), "refuted 0 0 0 1\n");
    prints(&[&[0x10, 17], &seventeen[..], &[0x20, 0]].concat(), "refused 4 1\n");
    prints(&[&[0x10, 0, 0x20, 17], &seventeen[..]].concat(), "refused 4 3\n");
    // 48 connectives are read, the 49th gives 6.
    let nots = |count: usize| [&[0x10, 0, 0x20, 1], &vec![NOT; count][..], &[LETTER, 0]].concat();
    prints(&nots(48), "refuted 0 48 0 1\n");
    prints(&nots(49), "refused 6 52\n");
    // The empty slice gives 2 at place 0.
    prints(&[], "refused 2 0\n");
}

/// Every byte as the number of a letter, and the states of one letter and of all.
#[test]
fn every_letter() {
    for byte in 0..=255 {
        let (left, both) = ([0x10, 1, LETTER, byte, 0x20, 0], [0x10, 1, LETTER, byte, 0x20, 1, LETTER, byte]);
        if byte < LETTERS {
            prints(&left, &format!("refuted {} 0 0 1\n", 1u64 << byte));
            prints(&both, &format!("theorem 0 1 1\n41 {byte:02x}\n"));
        } else {
            prints(&left, "refused 5 3\n");
            prints(&both, "refused 5 3\n");
        }
    }
    // Four letters in each of 16 formulas on the left.
    let joined =
        |first: u8| [&[AND; 3][..], &(first..first + 4).flat_map(|k| [LETTER, k]).collect::<Vec<_>>()].concat();
    let all: Vec<u8> = (0..LETTERS).step_by(4).flat_map(joined).collect();
    prints(&[&[0x10, 16], &all[..], &[0x20, 0]].concat(), "refuted 18446744073709551615 48 0 1\n");
}

// Refusals

#[test]
fn each_refusal() {
    for (question, text) in [
        ("10", "refused 2 1\n"),
        ("10 01 02", "refused 2 3\n"),
        ("10 00 20 01 06 01 00 01", "refused 2 8\n"),
        ("00", "refused 3 0\n"),
        ("20 00 10 00", "refused 3 0\n"),
        ("10 01 07", "refused 3 2\n"),
        ("10 00 20 01 02 07", "refused 3 5\n"),
        ("10 ff", "refused 4 1\n"),
        ("10 00 20 11", "refused 4 3\n"),
        ("10 01 01 ff", "refused 5 3\n"),
        ("10 00 20 00 00", "refused 7 4\n"),
        ("10 00 20 01 01 00 01 00", "refused 7 6\n"),
        // A line's end behind the question is a byte left over.
        ("10 01 01 00 20 01 01 00 0a", "refused 7 8\n"),
    ] {
        prints(&hex(question), text);
    }
    prints(&[&[0x10, 1], &[AND; 48][..], &[NOT]].concat(), "refused 6 50\n");
    prints(&[0x10; 213], "refused 1 212\n");
}

/// A theorem of 212 bytes: 16 formulas on each side, 48 connectives with two parts each.
fn longest() -> Vec<u8> {
    let mut bytes = vec![];
    for (command, connective) in [(0x10, AND), (0x20, OR)] {
        bytes.extend([command, 16]);
        for place in 0..16u8 {
            // 24 connectives a side: one and two in turn. Only letter 15, the last, stands on both sides.
            let letter = if place == 15 { 15 } else { place + if command == 0x10 { 0 } else { 16 } };
            let connectives = 1 + usize::from(place % 2);
            bytes.extend(vec![connective; connectives]);
            bytes.extend([LETTER, letter].repeat(1 + connectives));
        }
    }
    assert_eq!(bytes.len(), 212);
    bytes
}

/// The first 212 bytes are a question, so a program that reads no further prints a verdict for more bytes, too.
#[test]
fn more_than_212_bytes() {
    let longest = longest();
    assert_eq!(agrees(&longest), "theorem");
    // The last formula closes at the first of its two connectives.
    assert!(ask(&longest).starts_with("theorem 47 1 1\n"));
    for more in [1, 2, 44, 300 - 212, 4_096, 100_000] {
        for byte in [0, LETTER, 0x0a, 0xff] {
            prints(&[&longest[..], &vec![byte; more]].concat(), "refused 1 212\n");
        }
    }
    // Too long comes before whatever else is wrong.
    for length in [213, 300] {
        prints(&vec![0xff; length], "refused 1 212\n");
        prints(&[&hex("10 00 20 00")[..], &vec![0; length - 4]].concat(), "refused 1 212\n");
    }
    prints(&[0xff; 212], "refused 3 0\n");
    prints(&[&hex("10 00 20 00")[..], &[0; 208]].concat(), "refused 7 4\n");
}

/// Bytes that come one at a time are one question.
#[test]
fn bytes_that_come_slowly() {
    let question = hex("10 01 02 04 01 00 01 01 20 01 02 01 00");
    let mut child = start();
    let mut input = child.stdin.take().unwrap();
    for byte in &question {
        input.write_all(&[*byte]).unwrap();
        std::thread::sleep(Duration::from_millis(3));
    }
    drop(input);
    assert_eq!(finish(child, &question), "theorem 3 1 1\n52 00 62 00 64 00 41 00\n");
}

// Sizes

/// OR over `leaves` times letter 1, which stands nowhere on the right. On the left it makes `leaves` copies of what
/// follows, with one reduction fewer than that.
fn copies(leaves: usize) -> Vec<u8> {
    [vec![OR; leaves - 1], [LETTER, 1].repeat(leaves)].concat()
}

/// AND over letter 1: so many reductions on the left, one premise each.
fn steps(count: usize) -> Vec<u8> {
    [vec![AND; count], [LETTER, 1].repeat(count + 1)].concat()
}

/// A theorem of the size wanted: from these formulas follows P IMPLIES P, which takes one reduction and closes. Below n
/// copies stand n of it, so it has 2 n - 1 reductions (one more for each step before them), n closings and width n.
fn sized(left: &[Vec<u8>]) -> Vec<u8> {
    let follows = [IMPLIES, LETTER, 0, LETTER, 0];
    [&[0x10, left.len() as u8], &left.concat()[..], &[0x20, 1], &follows].concat()
}

/// The longest derivation that `ask` prints has 4,096 bytes. 680 copies take 1,359 reductions and 680 closings, so
/// 4,078 bytes; each step takes two more.
#[test]
fn the_longest_derivation_printed() {
    let question = |before: usize| sized(&[steps(before), copies(2), copies(2), copies(2), copies(5), copies(17)]);
    for (before, bytes) in [(8, 4_094), (9, 4_096)] {
        let text = ask(&question(before));
        let (line, derivation) = text.split_once('\n').unwrap();
        assert_eq!(line, format!("theorem {} 680 680", 1_359 + before));
        assert_eq!(derivation.len(), 3 * bytes);
        assert_eq!(order::check(&question(before), &hex(derivation)), (0, 0));
        assert_eq!(agrees(&question(before)), "theorem");
    }
    prints(&question(10), "theorem 1369 680 680\nno space\n");
    prints(&question(11), "theorem 1370 680 680\nno space\n");
}

/// 500,000 copies take 999,999 reductions. One step before them reaches the budget. With two, the budget is spent at
/// the last copy of P IMPLIES P; with three, at the one before.
#[test]
fn the_last_reduction_of_the_budget() {
    let question = |before: usize| {
        let fives = [copies(5), copies(5), copies(5), copies(5), copies(5), copies(5)];
        let twos = [copies(2), copies(2), copies(2), copies(2), copies(2)];
        sized(&[&[steps(before)], &fives[..], &twos[..]].concat())
    };
    prints(&question(0), "theorem 999999 500000 500000\nno space\n");
    prints(&question(1), "theorem 1000000 500000 500000\nno space\n");
    prints(&question(2), "spent 1000000 499999 500000\n");
    prints(&question(3), "spent 1000000 499998 500000\n");
}

/// EQUIV alone makes a width of 2 to the power of the connectives, up to 48: more than 32 bits, in each line that has
/// a width.
#[test]
fn the_largest_widths() {
    let one = |connectives: usize| {
        [&[0x10, 0, 0x20, 1], &vec![EQUIV; connectives][..], &[LETTER, 0].repeat(connectives + 1)].concat()
    };
    // EQUIV over one letter is true everywhere if the letter stands there an even number of times.
    prints(&one(48), "refuted 0 48 24 281474976710656\n");
    assert!(ask(&one(47)).starts_with("theorem 93 94 140737488355328\n66 00 56 00 41 00 66 01 "));
    assert_eq!(agrees(&one(47)), "theorem");
    let question = questions::equiv_chains(24);
    assert_eq!(agrees(&question), "spent");
    assert!(ask(&question).ends_with(" 140737488355328\n"));
}

// Random questions

/// So many questions from a fixed seed; those with a tree too large to grow for each are left out. The answer tells how
/// many texts begin with a word.
fn random(seed: u64, count: usize, make: impl Fn(&mut Prng) -> Vec<u8>) -> impl Fn(&str) -> usize {
    let mut rng = Prng::new(seed);
    let mut words = vec![];
    while words.len() < count {
        let input = make(&mut rng);
        if !tree::read(&input).is_ok_and(|question| question.tree(20_000).end == End::Large) {
            words.push(agrees(&input));
        }
    }
    move |word| words.iter().filter(|seen| *seen == word).count()
}

#[test]
fn short_questions() {
    let seen = random(41, 2_000, questions::short);
    assert!(seen("theorem") > 200 && seen("refuted") > 200);
}

#[test]
fn theorems() {
    let seen = random(42, 1_000, |rng| questions::theorem(rng, 12));
    assert_eq!(seen("theorem"), 1_000);
}

#[test]
fn formulas_on_both_sides() {
    let seen = random(45, 1_000, questions::repeated);
    assert!(seen("theorem") > 500 && seen("refuted") > 100);
}

#[test]
fn questions_near_the_limits() {
    let seen = random(43, 1_000, questions::near_limits);
    assert!(seen("theorem") > 100 && seen("refuted") > 100);
}

#[test]
fn damaged_questions() {
    let seen = random(44, 2_000, questions::damaged);
    assert!(seen("refused") > 1_000 && seen("theorem") > 10 && seen("refuted") > 10);
}
