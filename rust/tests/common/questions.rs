//! Random questions: short ones, ones near the limits, ones with many letters, theorems by construction, ones with
//! formulas on both sides, damaged ones, ones made of clauses alone, and ones that almost are.

use super::order::first_formula;
use super::prng::Prng;
use super::{HIGH, LETTERS};

pub const LETTER: u8 = 1;
pub const NOT: u8 = 2;
pub const AND: u8 = 3;
pub const OR: u8 = 4;
pub const IMPLIES: u8 = 5;
pub const EQUIV: u8 = 6;

/// What formulas are made of.
pub struct Shape {
    pub letters: Vec<u8>,
    /// In how many of 100 cases a connective is one that has a single premise where it stands.
    pub thrift: usize,
    /// Letters that end up on the left and on the right are different ones (but for EQUIV): most questions are refuted.
    pub apart: bool,
    /// Whether NOT is used at all.
    pub nots: bool,
}

/// `count` different letters.
pub fn some_letters(rng: &mut Prng, count: usize) -> Vec<u8> {
    let mut all: Vec<u8> = (0..LETTERS).collect();
    for i in 0..count {
        let j = rng.within(i, all.len() - 1);
        all.swap(i, j);
    }
    all.truncate(count);
    all
}

/// Appends a formula with so many connectives, to stand on the left or on the right.
pub fn formula(rng: &mut Prng, shape: &Shape, connectives: usize, on_left: bool, to: &mut Vec<u8>) {
    if connectives == 0 {
        let half = shape.letters.len().div_ceil(2);
        let from = match (shape.apart, on_left) {
            (false, _) => &shape.letters[..],
            (true, true) => &shape.letters[..half],
            (true, false) => &shape.letters[shape.letters.len() - half..],
        };
        to.extend([LETTER, rng.pick(from)]);
        return;
    }
    let connective = if rng.chance(shape.thrift) {
        if on_left {
            rng.pick(&[NOT, AND])
        } else {
            rng.pick(&[NOT, OR, IMPLIES])
        }
    } else {
        rng.within(2, 6) as u8
    };
    let connective = match connective {
        NOT if !shape.nots && on_left => AND,
        NOT if !shape.nots => OR,
        other => other,
    };
    to.push(connective);
    if connective == NOT {
        return formula(rng, shape, connectives - 1, !on_left, to);
    }
    let first = rng.below(connectives);
    formula(rng, shape, first, on_left != (connective == IMPLIES), to);
    formula(rng, shape, connectives - 1 - first, on_left, to);
}

/// A question with so many formulas on each side and so many connectives (none where there is no formula).
pub fn question(rng: &mut Prng, shape: &Shape, left: usize, right: usize, connectives: usize) -> Vec<u8> {
    let mut shares = vec![0; left + right];
    if !shares.is_empty() {
        for _ in 0..connectives {
            let at = rng.below(shares.len());
            shares[at] += 1;
        }
    }
    let mut bytes = vec![0x10, left as u8];
    for &share in &shares[..left] {
        formula(rng, shape, share, true, &mut bytes);
    }
    bytes.extend([0x20, right as u8]);
    for &share in &shares[left..] {
        formula(rng, shape, share, false, &mut bytes);
    }
    bytes
}

pub fn short(rng: &mut Prng) -> Vec<u8> {
    let count = rng.within(1, 5);
    let shape = Shape { letters: some_letters(rng, count), thrift: rng.pick(&[0, 0, 40]), apart: false, nots: true };
    let (left, right) = (rng.below(4), rng.below(4));
    let connectives = rng.below(10);
    question(rng, &shape, left, right, connectives)
}

pub fn near_limits(rng: &mut Prng) -> Vec<u8> {
    let count = rng.pick(&[1, 2, 4, 8, 12, 12, 24, 40, LETTERS.into()]);
    let shape = Shape {
        letters: some_letters(rng, count),
        thrift: rng.pick(&[60, 90, 97, 100]),
        apart: rng.chance(70),
        nots: rng.chance(70),
    };
    let (left, right) = (rng.pick(&[0, 1, 3, 8, 15, 16, 16]), rng.pick(&[0, 1, 3, 8, 15, 16, 16]));
    let connectives = rng.pick(&[48, 48, 47, 40, 30]);
    question(rng, &shape, left, right, connectives)
}

/// The places of a question's letters: of the bytes that number them.
pub fn letter_places(question: &[u8]) -> Vec<usize> {
    let mut places = vec![];
    let mut at = 0;
    while at < question.len() {
        match question[at] {
            LETTER => {
                places.push(at + 1);
                at += 2
            }
            0x10 | 0x20 => at += 2,
            _ => at += 1,
        }
    }
    places
}

/// The same question with other letters.
pub fn renamed(question: &[u8], name: impl Fn(u8) -> u8) -> Vec<u8> {
    let mut bytes = question.to_vec();
    for place in letter_places(question) {
        bytes[place] = name(bytes[place]);
    }
    bytes
}

/// A question with so many different letters and 48 connectives, none of them NOT.
pub fn many_letters(rng: &mut Prng, count: usize) -> Vec<u8> {
    let letters = some_letters(rng, count);
    let shape = Shape { letters, thrift: rng.pick(&[60, 90, 100]), apart: false, nots: false };
    // It has as many places for letters as formulas and connectives together.
    let left = rng.within(0, 16);
    let right = rng.within(count.saturating_sub(48 + left).max(1), 16);
    let mut bytes = question(rng, &shape, left, right, 48);
    let mut places = letter_places(&bytes);
    for (i, &letter) in shape.letters.iter().enumerate() {
        let j = rng.within(i, places.len() - 1);
        places.swap(i, j);
        bytes[places[i]] = letter;
    }
    bytes
}

/// Another formula that is true in the same states.
fn rewritten(rng: &mut Prng, bytes: &[u8], to: &mut Vec<u8>) -> usize {
    if rng.chance(10) {
        to.extend([NOT, NOT]);
    }
    match bytes[0] {
        LETTER => {
            to.extend(&bytes[..2]);
            2
        }
        NOT => {
            to.push(NOT);
            1 + rewritten(rng, &bytes[1..], to)
        }
        connective => {
            let (mut f, mut g) = (vec![], vec![]);
            let first = rewritten(rng, &bytes[1..], &mut f);
            let second = rewritten(rng, &bytes[1 + first..], &mut g);
            if connective != IMPLIES && rng.chance(50) {
                std::mem::swap(&mut f, &mut g);
            }
            let spelled: Vec<&[u8]> = match (connective, rng.below(3)) {
                (AND, 0) => vec![&[NOT, OR, NOT], &f, &[NOT], &g],
                (AND, 1) => vec![&[NOT, IMPLIES], &f, &[NOT], &g],
                (OR, 0) => vec![&[NOT, AND, NOT], &f, &[NOT], &g],
                (OR, 1) => vec![&[IMPLIES, NOT], &f, &g],
                (IMPLIES, 0) => vec![&[OR, NOT], &f, &g],
                (IMPLIES, 1) => vec![&[IMPLIES, NOT], &g, &[NOT], &f],
                (EQUIV, 0) => vec![&[AND, IMPLIES], &f, &g, &[IMPLIES], &g, &f],
                (EQUIV, 1) => vec![&[NOT, EQUIV], &f, &[NOT], &g],
                _ => vec![std::slice::from_ref(&connective), &f, &g],
            };
            to.extend(spelled.concat());
            1 + first + second
        }
    }
}

/// A theorem: from a formula (and others beside it) follows the same formula written in another way.
pub fn theorem(rng: &mut Prng, most: usize) -> Vec<u8> {
    let count = rng.within(1, 6);
    let shape = Shape { letters: some_letters(rng, count), thrift: rng.pick(&[0, 50]), apart: false, nots: true };
    loop {
        let connectives = rng.within(1, most);
        let mut given = vec![];
        formula(rng, &shape, connectives, true, &mut given);
        let mut follows = vec![];
        rewritten(rng, &given, &mut follows);
        let (mut left, mut right) = (vec![given], vec![follows]);
        if rng.chance(20) {
            // Both as one formula on the right.
            right = vec![[&[rng.pick(&[IMPLIES, EQUIV])], left[0].as_slice(), right[0].as_slice()].concat()];
            left = vec![];
        }
        for _ in 0..rng.below(3) {
            let mut beside = vec![];
            let connectives = rng.below(3);
            let on_left = rng.chance(50);
            formula(rng, &shape, connectives, on_left, &mut beside);
            let side = if on_left { &mut left } else { &mut right };
            let at = rng.below(side.len() + 1);
            side.insert(at, beside);
        }
        let bytes = with_formulas(&left, &right);
        if super::tree::read(&bytes).is_ok() {
            return bytes;
        }
    }
}

/// The question with these formulas, in this order.
pub fn with_formulas(left: &[Vec<u8>], right: &[Vec<u8>]) -> Vec<u8> {
    [&[0x10, left.len() as u8][..], &left.concat(), &[0x20, right.len() as u8], &right.concat()].concat()
}

/// Some formulas with connectives. Some of them differ from the one before in a letter or in the order of their parts.
fn pool(rng: &mut Prng, shape: &Shape) -> Vec<Vec<u8>> {
    let most = rng.pick(&[1, 2, 4]);
    let mut pool: Vec<Vec<u8>> = vec![];
    for _ in 0..rng.within(1, 5) {
        let mut made = vec![];
        match (pool.last(), rng.below(4)) {
            (Some(before), 0) => {
                made.clone_from(before);
                let last = made.len() - 1;
                made[last] = rng.pick(&shape.letters);
            }
            (Some(before), 1) => {
                rewritten(rng, before, &mut made);
            }
            _ => {
                let connectives = rng.within(1, most);
                formula(rng, shape, connectives, true, &mut made);
            }
        }
        pool.push(made);
    }
    pool
}

/// A formula of the pool, by itself or as a part of another one; or a letter.
fn drawn(rng: &mut Prng, shape: &Shape, pool: &[Vec<u8>]) -> Vec<u8> {
    let one = &pool[rng.below(pool.len())];
    let other = &pool[rng.below(pool.len())];
    match rng.below(16) {
        0 => [&[NOT], &one[..]].concat(),
        1..=4 => [&[rng.within(3, 6) as u8], &one[..], other].concat(),
        5..=6 => vec![LETTER, rng.pick(&shape.letters)],
        _ => one.clone(),
    }
}

/// A question with formulas of a small pool on both sides, by themselves and as parts: equal ones with a connective
/// meet, often at several places, at once or after reductions. Letters stand beside them.
pub fn repeated(rng: &mut Prng) -> Vec<u8> {
    let count = rng.within(2, 8);
    let shape = Shape { letters: some_letters(rng, count), thrift: rng.pick(&[0, 0, 50]), apart: false, nots: true };
    loop {
        let pool = pool(rng, &shape);
        let [left, right] = [0, 1].map(|_| -> Vec<Vec<u8>> {
            let count = rng.pick(&[0, 1, 1, 2, 3, 4, 6, 9, 16]);
            (0..count).map(|_| drawn(rng, &shape, &pool)).collect()
        });
        let bytes = with_formulas(&left, &right);
        if super::tree::read(&bytes).is_ok() {
            return bytes;
        }
    }
}

const TELLING: [u8; 19] =
    [0, 1, 2, 3, 4, 5, 6, 7, 15, 16, 17, 0x20, 0x21, 48, LETTERS - 1, LETTERS, LETTERS + 1, 127, 255];

/// A question with some bytes changed, put in, taken out or appended, or one that goes over a limit.
pub fn damaged(rng: &mut Prng) -> Vec<u8> {
    let mut bytes = match rng.below(11) {
        0..=4 => short(rng),
        5..=6 => near_limits(rng),
        7 => theorem(rng, 8),
        8 => repeated(rng),
        9 => {
            let bytes = over_limits(rng);
            if rng.chance(50) {
                return bytes;
            }
            bytes
        }
        _ => {
            let length = rng.below(12);
            let mut bytes = vec![0x10, rng.below(3) as u8];
            bytes.extend((0..length).map(|_| rng.pick(&[0, 1, 1, 2, 3, 4, 5, 6, 0x20])));
            bytes
        }
    };
    for _ in 0..rng.within(1, 3) {
        damage(rng, &mut bytes);
    }
    bytes
}

/// A question over the limits now and then.
fn over_limits(rng: &mut Prng) -> Vec<u8> {
    let letters = if rng.chance(10) { LETTERS + 1 } else { LETTERS };
    let shape = Shape { letters: (0..letters).collect(), thrift: 50, apart: false, nots: true };
    let (left, right) = (rng.pick(&[1, 15, 16, 17]), rng.pick(&[1, 15, 16, 16]));
    let connectives = rng.within(46, 52);
    question(rng, &shape, left, right, connectives)
}

fn damage(rng: &mut Prng, bytes: &mut Vec<u8>) {
    let at = rng.below(bytes.len().max(1));
    match rng.below(8) {
        0 | 1 if !bytes.is_empty() => bytes[at] = rng.pick(&TELLING),
        2 if !bytes.is_empty() => bytes[at] ^= 1 << rng.below(8),
        3 if !bytes.is_empty() => {
            bytes.remove(at);
        }
        4 => bytes.insert(at, rng.pick(&TELLING)),
        5 => bytes.truncate(at),
        6 => {
            let more = rng.within(1, 4);
            bytes.extend((0..more).map(|_| rng.pick(&TELLING)));
        }
        _ => {
            let end = rng.within(at, bytes.len());
            let again = bytes[at.min(end)..end].to_vec();
            bytes.splice(at.min(end)..at.min(end), again);
        }
    }
}

/// A theorem with a large tree: EQUIV over so many letters around 32, on the right, with its letters in the opposite
/// order.
pub fn equiv_chains(letters: u8) -> Vec<u8> {
    let first = HIGH - letters / 2;
    let letters = first..first + letters;
    let chain = |letters: Vec<u8>| -> Vec<u8> {
        let mut bytes = vec![EQUIV; letters.len() - 1];
        bytes.extend(letters.iter().flat_map(|&letter| [LETTER, letter]));
        bytes
    };
    [&[0x10, 0, 0x20, 1, EQUIV][..], &chain(letters.clone().collect()), &chain(letters.rev().collect())].concat()
}

// Clauses

/// OR over these formulas, in their order: nested to the right, to the left, by halves or at random.
fn joined(rng: &mut Prng, parts: &[Vec<u8>], nesting: usize) -> Vec<u8> {
    if let [part] = parts {
        return part.clone();
    }
    let first = match nesting {
        0 => 1,
        1 => parts.len() - 1,
        2 => parts.len() / 2,
        _ => rng.within(1, parts.len() - 1),
    };
    [vec![OR], joined(rng, &parts[..first], nesting), joined(rng, &parts[first..], nesting)].concat()
}

/// The clause with these letters under NOT and this one without, if any, in a random order and nesting.
pub fn clause(rng: &mut Prng, under_not: &[u8], without: Option<u8>) -> Vec<u8> {
    let mut parts: Vec<Vec<u8>> = under_not.iter().map(|&letter| vec![NOT, LETTER, letter]).collect();
    parts.extend(without.map(|letter| vec![LETTER, letter]));
    rng.shuffle(&mut parts);
    let nesting = rng.below(4);
    joined(rng, &parts, nesting)
}

/// Some of these letters, at most so many: often the last of them, now and then one of them more than once.
fn under_not(rng: &mut Prng, letters: &[u8], most: usize) -> Vec<u8> {
    let count = rng.pick(&[1, 1, 1, 1, 2, 2, 3, 5, 24]).min(most);
    let last = letters[letters.len() - 1];
    (0..count).map(|_| if rng.chance(40) { last } else { rng.pick(letters) }).collect()
}

/// Up to 16 clauses with at most so many connectives together. Most have letters under NOT that stand without NOT in
/// those made before, so that there are several rounds.
fn clauses(rng: &mut Prng, mut spare: usize) -> Vec<Vec<u8>> {
    let count = rng.pick(&[1, 2, 3, 5, 8, 12, 16, LETTERS.into()]);
    let letters = some_letters(rng, count);
    // In how many of 100 cases any letters stand under NOT, and in how many all letters do.
    let (any, all) = (rng.pick(&[0, 20, 60]), rng.pick(&[0, 10, 40]));
    let (mut made, mut reached) = (vec![], vec![]);
    for i in 0..rng.within(1, 16) {
        let from = if reached.is_empty() || rng.chance(any) { &letters } else { &reached };
        let alone = rng.chance(if reached.is_empty() { 90 } else { 10 });
        // A letter under NOT takes two connectives: its NOT, and an OR beside the next part. The last part takes no OR.
        let under_not = under_not(rng, from, if alone { 0 } else { spare / 2 });
        let without = Some(letters[i % letters.len()]).filter(|_| under_not.is_empty() || !rng.chance(all));
        spare -= 2 * under_not.len() - usize::from(without.is_none());
        made.push(clause(rng, &under_not, without));
        reached.extend(without);
    }
    if rng.chance(70) {
        rng.shuffle(&mut made);
    }
    made
}

/// A question that is made of clauses alone.
pub fn of_clauses(rng: &mut Prng) -> Vec<u8> {
    let spare = rng.pick(&[6, 16, 32, 48, 48]);
    with_formulas(&clauses(rng, spare), &[])
}

/// Where the formulas within a clause start, but for those under NOT.
fn starts(clause: &[u8]) -> Vec<usize> {
    let mut starts = vec![];
    let mut at = 0;
    while at < clause.len() {
        starts.push(at);
        at += match clause[at] {
            LETTER => 2,
            NOT => 3,
            _ => 1,
        };
    }
    starts
}

/// The clause with this part beside one of its formulas: OR of both, in either order.
fn beside(rng: &mut Prng, clause: &[u8], part: &[u8]) -> Vec<u8> {
    let (before, rest) = clause.split_at(rng.pick(&starts(clause)));
    let (formula, behind) = first_formula(rest);
    let [f, g] = if rng.chance(50) { [formula, part] } else { [part, formula] };
    [before, &[OR], f, g, behind].concat()
}

/// A formula made of a clause, with up to five more connectives, that is none; and the number due, 14 or 15.
fn spoiled(rng: &mut Prng, clause: &[u8]) -> (Vec<u8>, u32) {
    let k = rng.below(LETTERS.into()) as u8;
    let l = if rng.chance(40) { k } else { rng.below(LETTERS.into()) as u8 };
    let (connective, two) = (rng.pick(&[AND, IMPLIES, EQUIV]), [OR, LETTER, k, LETTER, l]);
    match rng.below(9) {
        0 => (beside(rng, clause, &[NOT, NOT, LETTER, k]), 14),
        1 => (beside(rng, clause, &[&[NOT][..], &two].concat()), 14),
        2 => (beside(rng, clause, &[connective, LETTER, k, LETTER, l]), 14),
        3 => ([&[connective], clause, &[LETTER, k]].concat(), 14),
        4 if clause[0] == LETTER => ([&[NOT, NOT], clause].concat(), 14),
        4 => ([&[NOT], clause].concat(), 14),
        5 if clause[0] == OR => ([&[connective], &clause[1..]].concat(), 14),
        // Two letters without NOT, too: 14 comes first.
        5 | 6 => {
            let many = beside(rng, clause, &two);
            (beside(rng, &many, &[NOT, NOT, LETTER, l]), 14)
        }
        7 => (beside(rng, clause, &two), 15),
        _ if starts(clause).iter().any(|&at| clause[at] == LETTER) => (beside(rng, clause, &[LETTER, k]), 15),
        _ => {
            let one = beside(rng, clause, &[LETTER, k]);
            (beside(rng, &one, &[LETTER, l]), 15)
        }
    }
}

/// A question that is almost made of clauses alone, with the number and place due: one or two formulas on the left are
/// no clauses, or the right side is not empty, or both.
pub fn almost_of_clauses(rng: &mut Prng) -> (Vec<u8>, (u32, u64)) {
    let mut left = clauses(rng, 32);
    let on_right = rng.chance(25);
    let mut places: Vec<usize> = (0..left.len()).collect();
    rng.shuffle(&mut places);
    let wanted = rng.within(usize::from(!on_right), 2).min(left.len());
    let mut faults = vec![];
    for &place in &places[..wanted] {
        let (formula, number) = spoiled(rng, &left[place]);
        left[place] = formula;
        faults.push((place, number));
    }
    let shape = Shape { letters: some_letters(rng, 3), thrift: 0, apart: false, nots: true };
    let mut right = vec![];
    for _ in 0..if on_right { rng.within(1, 3) } else { 0 } {
        let (mut formula, connectives) = (vec![], rng.below(3));
        self::formula(rng, &shape, connectives, false, &mut formula);
        right.push(formula);
    }
    let start = |place: usize| 2 + left[..place].concat().len() as u64;
    // On the right, the count comes before the first formula.
    let due = match faults.iter().min() {
        Some(&(place, number)) if !on_right => (number, start(place)),
        _ => (13, start(left.len()) + 2),
    };
    (with_formulas(&left, &right), due)
}
