//! One question put to the library, the truth table, the tree, the other spelling and the other program for clauses:
//! everything that they must agree on.

use super::prng::Prng;
use super::tree::{self, End, Equals, Question, Tree};
use super::{calls, clauses, high_letters, order, spelling, truth, HIGH};
use gekunday::{ClauseVerdict, Kind, NotClauses, NotListed, NotSpelled, NotWritten, Refusal, Side, Verdict};

/// What has been seen, so that a test can show that its questions were not all of one kind.
#[derive(Default, Debug)]
pub struct Seen {
    pub questions: u64,
    pub refused: [u64; 8],
    pub theorems: u64,
    pub refuted: u64,
    pub large: u64,
    /// Verdicts that a whole truth table confirmed.
    pub tables: u64,
    /// Questions whose refuting states were listed, and these states.
    pub listed: u64,
    pub states: u64,
    /// Questions with too many letters for a list, and the most different letters that one had.
    pub many_letters: u64,
    pub most_letters: usize,
    pub high: High,
    /// Questions that are not their own spelling, and those of them whose spelling is shorter.
    pub respelled: u64,
    pub shortened: u64,
    /// How often the call that decides clauses gave each number, for an accepted question: 0, 13, 14 and 15.
    pub clauses: [u64; 16],
    /// Questions with 48 connectives, with 212 bytes, with 16 formulas on a side.
    pub most_connectives: u64,
    pub most_bytes: u64,
    pub most_formulas: u64,
    pub reductions: u64,
    pub closings: u64,
    pub equals: Equals,
    pub most_reductions: u64,
}

/// Where letters were seen that have no bit in a state of 32 bits.
#[derive(Default, Debug)]
pub struct High {
    pub questions: u64,
    /// Closings on such a letter, in derivations.
    pub closings: u64,
    /// States of refuted questions, and states listed, in which such a letter is true.
    pub refuting: u64,
    pub listed: u64,
}

/// Letters up to which the whole table is gone through.
const TABLE_LETTERS: usize = 12;
/// Letters up to which the refuting states are listed. (Longer lists are in `states.rs`.)
const LISTED_LETTERS: usize = 10;

/// Examines one question; its tree is followed up to `limit` reductions.
pub fn examine(bytes: &[u8], rng: &mut Prng, limit: usize, seen: &mut Seen) {
    seen.questions += 1;
    let table = truth::read(bytes);
    match tree::read(bytes) {
        Err(refused) => {
            assert_eq!(table.err(), Some(refused), "the two readers, on {:02x?}", bytes);
            seen.refused[refused.0 as usize] += 1;
            refusal(bytes, refused, rng);
        }
        Ok(question) => match table {
            Err(refused) => panic!("the two readers, on {:02x?}: {:?}", bytes, refused),
            Ok(table) => accepted(bytes, &question, &table, rng, limit, seen),
        },
    }
}

fn refusal(bytes: &[u8], (number, place): (u32, u64), rng: &mut Prng) {
    let budget = rng.pick(&[0, 1, 1000, u64::MAX]);
    let room = rng.pick(&[0, 1, 8, 300]);
    assert_eq!(calls::decide(bytes, budget), (number, [place, 0, 0, 0]), "decide {:02x?}", bytes);
    assert_eq!(calls::width(bytes), (number, [place, 0]), "width {:02x?}", bytes);
    assert_eq!(calls::derive(bytes, budget, room), (number, [place, 0, 0], vec![]), "derive {:02x?}", bytes);
    let derivation = [0x41, 0, 0x52, 0, 7];
    let some = &derivation[..rng.below(6)];
    assert_eq!(calls::check(bytes, some), (number, [place]), "check {:02x?}", bytes);
    assert_eq!(calls::states(bytes, room), (number, [place], vec![]), "states of {:02x?}", bytes);
    assert_eq!(calls::spell(bytes, room), (number, [place], vec![]), "spell {:02x?}", bytes);
    assert_eq!(spelling::spell(bytes, room), (number, [place], vec![]), "the other spelling of {:02x?}", bytes);
    assert_eq!(clauses(bytes), (number, [place, 0, 0]), "clauses of {:02x?}", bytes);
    for side in 0..3 {
        for place in [0, rng.below(17)] {
            assert_eq!(calls::formula(bytes, side, place), (0, [0, 0]), "formula of {:02x?}", bytes);
        }
    }

    let refused = gekunday::width(bytes).unwrap_err();
    assert_eq!((refused.number(), refused.place()), (number, place));
    assert_eq!(gekunday::decide(bytes, budget), Err(refused));
    assert_eq!(gekunday::derive(bytes, budget, &mut [0; 4]), Err(NotWritten::Refused(refused)));
    assert_eq!(gekunday::check(bytes, some), Err(gekunday::NotPassed::Refused(refused)));
    assert_eq!(gekunday::states(bytes, &mut [0; 4]), Err(NotListed::Refused(refused)));
    assert_eq!(gekunday::spell(bytes, &mut [0; 4]), Err(NotSpelled::Refused(refused)));
    assert_eq!(gekunday::clauses(bytes), Err(NotClauses::Refused(refused)));
    assert_eq!(gekunday::formula(bytes, Side::Left, 0), None);
    assert_eq!(matches!(refused, Refusal::TooLong(212)), number == 1);
}

fn accepted(bytes: &[u8], question: &Question, table: &truth::Sequent, rng: &mut Prng, limit: usize, seen: &mut Seen) {
    seen.most_connectives += u64::from(question.connectives == 48);
    seen.most_bytes += u64::from(bytes.len() == 212);
    seen.most_formulas += u64::from(question.left.len() == 16 || question.right.len() == 16);
    let letters = table.letters();
    seen.most_letters = seen.most_letters.max(letters.len());
    seen.high.questions += u64::from(letters.iter().any(|&letter| letter >= HIGH));
    formulas(bytes, question, rng);
    spelled(bytes, seen);
    let listed = listed(bytes, letters.len(), seen);
    let clause_verdict = clause_verdict(bytes, table, listed.as_deref(), seen);

    let width = question.width();
    let c = question.connectives;
    assert!(width <= 1 << c);
    assert_eq!(calls::width(bytes), (0, [width as u64, c]), "width {:02x?}", bytes);
    assert_eq!(gekunday::width(bytes), Ok(gekunday::Width { width: width as u64, connectives: c }));

    let tree = question.tree(limit);
    if tree.end == End::Large {
        seen.large += 1;
        return spent(bytes, &tree, limit, rng);
    }
    seen.reductions += tree.reductions;
    seen.closings += tree.closings;
    seen.equals += tree.equals;
    seen.most_reductions = seen.most_reductions.max(tree.reductions);

    let budgets = verdicts(bytes, &tree, rng);
    bounds(bytes, question, &tree);
    truthful(bytes, table, listed, seen);
    if let Some(words) = clause_verdict {
        same_verdict(bytes, words);
    }
    let tight = rng.pick(&budgets);
    derivation(bytes, &tree, tight, rng, seen);
    wrapped_derive(bytes, &tree, tight);
}

/// More than `limit` reductions, so each budget up to the limit is spent.
fn spent(bytes: &[u8], tree: &Tree, limit: usize, rng: &mut Prng) {
    let r = tree.reductions;
    for budget in [0, 1, rng.below(limit) as u64, r - 1, r] {
        let expected = tree.decided(budget);
        assert_eq!(expected.0, 9);
        assert_eq!(calls::decide(bytes, budget), expected, "decide {:02x?} with {}", bytes, budget);
    }
    assert_eq!(calls::derive(bytes, r, 64), (9, tree.derived(r, 64).1, vec![]), "derive {:02x?}", bytes);
}

/// Verdict and counts, with budgets on both sides of the reductions. Answers the budgets.
fn verdicts(bytes: &[u8], tree: &Tree, rng: &mut Prng) -> Vec<u64> {
    let r = tree.reductions;
    let mut budgets = vec![0, r, r + 1, rng.next() % (r + 1), 1 << 32, u64::MAX];
    budgets.extend(r.checked_sub(1));
    for &budget in &budgets {
        let expected = tree.decided(budget);
        assert_eq!(calls::decide(bytes, budget), expected, "decide {:02x?} with {}", bytes, budget);
        let (number, [refuted, state, reductions, closings]) = expected;
        let kind = match (number, refuted) {
            (0, 0) => Kind::Theorem,
            (0, _) => Kind::Refuted(state),
            _ => Kind::Spent,
        };
        assert_eq!(gekunday::decide(bytes, budget), Ok(Verdict { kind, reductions, closings }));
        assert_eq!(kind == Kind::Spent, budget < r);
    }
    budgets
}

/// The bounds from the width.
fn bounds(bytes: &[u8], question: &Question, tree: &Tree) {
    let (width, c) = (question.width(), u128::from(question.connectives));
    let open = u128::from(tree.end != End::Theorem);
    assert!(u128::from(tree.reductions) <= c * width, "reductions over the bound: {:02x?}", bytes);
    assert!(u128::from(tree.closings) + open <= width, "closings over the bound: {:02x?}", bytes);
    assert!(tree.derivation.len() as u128 <= 2 * (c * width + width), "bytes over the bound: {:02x?}", bytes);
}

/// The derivation, with rooms on both sides of its length, and budgets on both sides of the reductions.
fn derivation(bytes: &[u8], tree: &Tree, tight: u64, rng: &mut Prng, seen: &mut Seen) {
    let length = tree.derivation.len();
    let mut rooms = vec![0, length, length + rng.within(1, 40)];
    rooms.extend(length.checked_sub(1));
    for room in rooms {
        for budget in [u64::MAX, tight] {
            let (number, words) = tree.derived(budget, room);
            let written = if number == 0 { &tree.derivation[..] } else { &[] };
            assert_eq!(
                calls::derive(bytes, budget, room),
                (number, words, written.to_vec()),
                "derive {:02x?} with budget {} and room {}",
                bytes,
                budget,
                room
            );
        }
    }
    if tree.end == End::Theorem {
        assert_eq!(order::check(bytes, &tree.derivation), (0, 0), "the other checker, on {:02x?}", bytes);
        assert_eq!(calls::check(bytes, &tree.derivation), (0, [0]), "check {:02x?}", bytes);
        assert_eq!(gekunday::check(bytes, &tree.derivation), Ok(()));
        let commands = order::commands(&tree.derivation);
        seen.high.closings += commands.iter().filter(|command| command[0] == 0x41 && command[1] >= HIGH).count() as u64;
    }
}

/// The truth, from the library's own words.
fn truthful(bytes: &[u8], table: &truth::Sequent, listed: Option<Vec<u64>>, seen: &mut Seen) {
    let (_, [refuted, state, ..]) = calls::decide(bytes, u64::MAX);
    if refuted == 1 {
        seen.refuted += 1;
        seen.high.refuting += u64::from(high_letters(state) != 0);
        assert!(!table.true_in(state), "{:02x?} is true in state {}", bytes, state);
        let occurring = table.letters().iter().fold(0u64, |set, &letter| set | 1 << letter);
        assert_eq!(state & !occurring, 0, "a letter of the state does not occur in {:02x?}", bytes);
    } else {
        seen.theorems += 1;
    }
    if table.letters().len() <= TABLE_LETTERS {
        seen.tables += 1;
        assert_eq!(table.true_everywhere(), refuted == 0, "truth of {:02x?}", bytes);
    }
    if let Some(states) = listed {
        assert_eq!(states.is_empty(), refuted == 0, "the list of {:02x?}", bytes);
        assert!(refuted == 0 || states.contains(&state), "the list of {:02x?} lacks {}", bytes, state);
    }
}

/// The list of refuting states, where the letters are few. Where they are too many for a list, it is refused.
fn listed(bytes: &[u8], letters: usize, seen: &mut Seen) -> Option<Vec<u64>> {
    match letters {
        0..=LISTED_LETTERS => {
            let states = states(bytes);
            seen.listed += 1;
            seen.states += states.len() as u64;
            seen.high.listed += states.iter().filter(|&&state| high_letters(state) != 0).count() as u64;
            Some(states)
        }
        17.. => {
            seen.many_letters += 1;
            assert!(states(bytes).is_empty());
            None
        }
        _ => None,
    }
}

/// The list of refuting states, with rooms on both sides of its length. Answers the list, empty where it is refused.
pub fn states(bytes: &[u8]) -> Vec<u64> {
    let (_, _, states) = truth::states(bytes, usize::MAX);
    let length = states.len();
    let mut rooms = vec![0, length.saturating_sub(1), length, length + 4];
    rooms.dedup();
    for room in rooms {
        let expected = truth::states(bytes, room);
        assert_eq!(calls::states(bytes, room), expected, "states of {:02x?} with room {}", bytes, room);
        wrapped_states(bytes, room, expected);
    }
    states
}

fn wrapped_states(bytes: &[u8], room: usize, (number, [word], states): (u32, [u64; 1], Vec<u64>)) {
    const BEFORE: u64 = 0xeeee_eeee_eeee_eeee;
    let mut buffer = vec![BEFORE; room];
    let answer = gekunday::states(bytes, &mut buffer);
    assert_eq!(answer.map_or_else(NotListed::number, |_| 0), number);
    match answer {
        Ok(listed) => assert_eq!(listed, states),
        Err(NotListed::Refused(refusal)) => assert_eq!(refusal.place(), word),
        Err(NotListed::ManyLetters { letters }) => assert_eq!(letters, word),
        Err(NotListed::NoSpace { needed }) => assert_eq!(needed, word),
    }
    assert!(buffer[states.len()..].iter().all(|&state| state == BEFORE));
}

/// The spelling, with rooms on both sides of its length.
fn spelled(bytes: &[u8], seen: &mut Seen) {
    let (_, _, spelling) = spelling::spell(bytes, bytes.len());
    let length = spelling.len();
    seen.respelled += u64::from(spelling != bytes);
    seen.shortened += u64::from(length < bytes.len());
    for room in [0, length - 1, length, length + 7] {
        let expected = spelling::spell(bytes, room);
        assert_eq!(calls::spell(bytes, room), expected, "spell {:02x?} with room {}", bytes, room);
    }
    let needed = length as u64;
    let mut buffer = vec![0xee; length + 3];
    assert_eq!(gekunday::spell(bytes, &mut buffer[..length - 1]), Err(NotSpelled::NoSpace { needed }));
    assert!(buffer.iter().all(|&byte| byte == 0xee));
    assert_eq!(gekunday::spell(bytes, &mut buffer), Ok(&spelling[..]));
    assert_eq!(buffer[length..], [0xee; 3]);
}

/// What the call that decides clauses answers, as the other program and the wrapper have it: number and words.
pub fn clauses(bytes: &[u8]) -> (u32, [u64; 3]) {
    let answer = calls::clauses(bytes);
    assert_eq!(answer, clauses::clauses(bytes), "clauses of {:02x?}", bytes);
    let wrapped = match gekunday::clauses(bytes) {
        Ok(ClauseVerdict::Theorem { rounds }) => (0, [0, 0, rounds]),
        Ok(ClauseVerdict::Refuted { state, rounds }) => (0, [1, state, rounds]),
        Err(why) => (why.number(), [why.place(), 0, 0]),
    };
    assert_eq!(answer, wrapped, "the wrapper, on {:02x?}", bytes);
    answer
}

/// The least of these states: the letters that are true in each of them. It is one of them.
pub fn least(states: &[u64]) -> u64 {
    let least = states.iter().fold(u64::MAX, |in_all, state| in_all & state);
    assert!(states.contains(&least), "no least one of {:x?}", states);
    least
}

/// The words of a question that is made of clauses alone: the state refutes, and is the least of the list.
fn clause_verdict(bytes: &[u8], table: &truth::Sequent, listed: Option<&[u64]>, seen: &mut Seen) -> Option<[u64; 3]> {
    let (number, words) = clauses(bytes);
    seen.clauses[number as usize] += 1;
    if number != 0 {
        return None;
    }
    let [refuted, state, rounds] = words;
    assert!(rounds <= table.letters().len() as u64, "rounds of {:02x?}", bytes);
    assert!(refuted == 0 || !table.true_in(state), "{:02x?} is true in state {}", bytes, state);
    match listed {
        Some([]) => assert_eq!(refuted, 0, "the list of {:02x?} is empty", bytes),
        Some(states) => assert_eq!((refuted, state), (1, least(states)), "the least state of {:02x?}", bytes),
        None => {}
    }
    Some(words)
}

/// The run comes to the same verdict, and its state has the letters of the least one.
fn same_verdict(bytes: &[u8], [refuted, least, _]: [u64; 3]) {
    let (_, [kind, state, ..]) = calls::decide(bytes, u64::MAX);
    assert_eq!((kind, state & least), (refuted, least), "the verdict of {:02x?}", bytes);
}

fn wrapped_derive(bytes: &[u8], tree: &Tree, budget: u64) {
    let room = tree.derivation.len() + 3;
    let mut buffer = vec![0xee; room];
    let answer = gekunday::derive(bytes, budget, &mut buffer);
    assert_eq!(answer.map_or_else(NotWritten::number, |_| 0), tree.derived(budget, room).0);
    match tree.derived(budget, room) {
        (0, [_, reductions, closings]) => {
            let written = answer.unwrap();
            assert_eq!(written.derivation, tree.derivation);
            assert_eq!((written.reductions, written.closings), (reductions, closings));
            assert_eq!(buffer[room - 3..], [0xee; 3]);
        }
        (9, [reductions, closings, _]) => assert_eq!(answer, Err(NotWritten::Spent { reductions, closings })),
        (10, [state, reductions, closings]) => {
            assert_eq!(answer, Err(NotWritten::NotProved { state, reductions, closings }));
        }
        other => panic!("not expected here: {:?}", other),
    }
    if let (11, [needed, ..]) = tree.derived(budget, 1) {
        let short = gekunday::derive(bytes, budget, &mut [0; 1]).unwrap_err();
        assert_eq!((short, short.number()), (NotWritten::NoSpace { needed }, 11));
    }
}

fn formulas(bytes: &[u8], question: &Question, rng: &mut Prng) {
    for (side, named, placed) in [(0, Side::Left, &question.left), (1, Side::Right, &question.right)] {
        for (place, formula) in placed.iter().enumerate() {
            let expected = (0, [formula.start as u64, formula.length as u64]);
            assert_eq!(calls::formula(bytes, side, place), expected, "formula {} of {:02x?}", place, bytes);
            let handed = gekunday::formula(bytes, named, place);
            assert_eq!(handed, Some(&bytes[formula.start..formula.start + formula.length]));
        }
        let end = placed.len();
        for past in [end, end + 1, end + rng.below(300), 1 << 8, 1 << 16, 1 << 32, usize::MAX] {
            assert_eq!(calls::formula(bytes, side, past), (0, [0, 0]), "formula {} of {:02x?}", past, bytes);
        }
        assert_eq!(gekunday::formula(bytes, named, end), None);
    }
    for no_side in [2, 3, 0x10, 0x20, 256, u32::MAX] {
        for place in [0, rng.below(16)] {
            assert_eq!(calls::formula(bytes, no_side, place), (0, [0, 0]), "side {} of {:02x?}", no_side, bytes);
        }
    }
}
