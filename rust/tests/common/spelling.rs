//! The standard spelling, apart from the library. It has its own reader, which cuts a question into the bytes of its
//! formulas, and puts those of each side into a set of byte strings. It shares nothing with any other file.

use std::collections::BTreeSet;

/// The formulas of one side, each once. Byte strings in such a set ascend by their bytes, compared from the first.
pub type Formulas<'q> = BTreeSet<&'q [u8]>;

type Refused = (u32, u64);

/// The byte at a place; 2 where there is none.
fn byte(question: &[u8], at: usize) -> Result<u8, Refused> {
    question.get(at).copied().ok_or((2, question.len() as u64))
}

/// Where the formula at this place ends.
fn end(question: &[u8], mut at: usize, connectives: &mut u32) -> Result<usize, Refused> {
    let mut due = 1;
    while due > 0 {
        match byte(question, at)? {
            1 if byte(question, at + 1)? >= 64 => return Err((5, at as u64 + 1)),
            1 => {
                due -= 1;
                at += 2;
                continue;
            }
            2..=6 if *connectives == 48 => return Err((6, at as u64)),
            2 => {}
            3..=6 => due += 1,
            _ => return Err((3, at as u64)),
        }
        *connectives += 1;
        at += 1;
    }
    Ok(at)
}

/// The formulas of the left side and of the right as they stand there, or the refusal's number and place.
pub fn formulas(question: &[u8]) -> Result<[Vec<&[u8]>; 2], Refused> {
    if question.len() > 212 {
        return Err((1, 212));
    }
    let mut sides = [vec![], vec![]];
    let (mut at, mut connectives) = (0, 0);
    for (command, side) in [0x10, 0x20].into_iter().zip(&mut sides) {
        if byte(question, at)? != command {
            return Err((3, at as u64));
        }
        let count = byte(question, at + 1)?;
        if count > 16 {
            return Err((4, at as u64 + 1));
        }
        at += 2;
        for _ in 0..count {
            let end = end(question, at, &mut connectives)?;
            side.push(&question[at..end]);
            at = end;
        }
    }
    if at < question.len() {
        return Err((7, at as u64));
    }
    Ok(sides)
}

/// The set of formulas on the left and on the right, or the refusal's number and place.
pub fn sets(question: &[u8]) -> Result<[Formulas<'_>; 2], Refused> {
    Ok(formulas(question)?.map(BTreeSet::from_iter))
}

/// The spelling of these sets.
pub fn of(sets: &[Formulas<'_>; 2]) -> Vec<u8> {
    let mut bytes = vec![];
    for (command, set) in [0x10, 0x20].iter().zip(sets) {
        bytes.extend([*command, set.len() as u8]);
        set.iter().for_each(|formula| bytes.extend(*formula));
    }
    bytes
}

/// What the call that spells answers with this room: number, word and the bytes written.
pub fn spell(question: &[u8], room: usize) -> (u32, [u64; 1], Vec<u8>) {
    let spelling = match sets(question) {
        Ok(sets) => of(&sets),
        Err((number, place)) => return (number, [place], vec![]),
    };
    let length = spelling.len() as u64;
    if spelling.len() > room {
        return (11, [length], vec![]);
    }
    (0, [length], spelling)
}
