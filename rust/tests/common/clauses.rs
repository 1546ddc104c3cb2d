//! Clauses, apart from the library. The reader makes a tree of each formula, with the place of its first byte; a clause
//! is a set of letters under NOT and a letter without; the rounds do what document 02, f, says, with sets of letters.
//! It shares nothing with any other file.

use std::collections::BTreeSet;
use std::iter::Enumerate;
use std::slice::Iter;

type Refused = (u32, u64);
type Letters = BTreeSet<u8>;

enum Tree {
    Letter(u8),
    Not(Box<Tree>),
    Or(Box<Tree>, Box<Tree>),
    /// AND, IMPLIES or EQUIV: no clause has one.
    Other,
}

/// A tree with the place of its first byte.
type Placed = (u64, Tree);

struct Reader<'q> {
    bytes: Enumerate<Iter<'q, u8>>,
    length: u64,
    /// Connectives that may still come.
    spare: u32,
}

impl Reader<'_> {
    fn next(&mut self) -> Result<(u64, u8), Refused> {
        self.bytes.next().map(|(place, &byte)| (place as u64, byte)).ok_or((2, self.length))
    }

    fn side(&mut self, command: u8) -> Result<Vec<Placed>, Refused> {
        match self.next()? {
            (_, byte) if byte == command => {}
            (place, _) => return Err((3, place)),
        }
        match self.next()? {
            (_, count @ 0..=16) => (0..count).map(|_| self.formula()).collect(),
            (place, _) => Err((4, place)),
        }
    }

    fn formula(&mut self) -> Result<Placed, Refused> {
        let (place, command) = self.next()?;
        if let 2..=6 = command {
            self.spare = self.spare.checked_sub(1).ok_or((6, place))?;
        }
        let tree = match command {
            1 => match self.next()? {
                (_, letter @ 0..=63) => Tree::Letter(letter),
                (place, _) => return Err((5, place)),
            },
            2 => Tree::Not(self.part()?),
            4 => Tree::Or(self.part()?, self.part()?),
            3 | 5 | 6 => {
                self.part()?;
                self.part()?;
                Tree::Other
            }
            _ => return Err((3, place)),
        };
        Ok((place, tree))
    }

    fn part(&mut self) -> Result<Box<Tree>, Refused> {
        self.formula().map(|(_, tree)| Box::new(tree))
    }
}

/// The formulas of both sides, or the reading refusal.
fn sides(question: &[u8]) -> Result<[Vec<Placed>; 2], Refused> {
    let length = question.len() as u64;
    if length > 212 {
        return Err((1, 212));
    }
    let mut reader = Reader { bytes: question.iter().enumerate(), length, spare: 48 };
    let sides = [reader.side(0x10)?, reader.side(0x20)?];
    match reader.next() {
        Ok((place, _)) => Err((7, place)),
        Err(_) => Ok(sides),
    }
}

pub struct Clause {
    pub under_not: Letters,
    pub without: Option<u8>,
}

impl Tree {
    /// The letters as often as they occur, each with whether it stands under NOT; none where this is no clause.
    fn occurrences(&self) -> Option<Vec<(u8, bool)>> {
        match self {
            Tree::Letter(letter) => Some(vec![(*letter, false)]),
            Tree::Not(part) => match **part {
                Tree::Letter(letter) => Some(vec![(letter, true)]),
                _ => None,
            },
            Tree::Or(f, g) => Some([f.occurrences()?, g.occurrences()?].concat()),
            Tree::Other => None,
        }
    }
}

fn clause((place, tree): &Placed) -> Result<Clause, Refused> {
    let occurrences = tree.occurrences().ok_or((14, *place))?;
    let (under_not, without): (Vec<_>, Vec<_>) = occurrences.into_iter().partition(|(_, under_not)| *under_not);
    if without.len() >= 2 {
        return Err((15, *place));
    }
    let under_not = under_not.into_iter().map(|(letter, _)| letter).collect();
    Ok(Clause { under_not, without: without.first().map(|(letter, _)| *letter) })
}

/// The clauses of a question, or the number and place of its refusal: of any number that the call gives.
pub fn read(question: &[u8]) -> Result<Vec<Clause>, Refused> {
    let [left, right] = sides(question)?;
    match right.first() {
        Some((place, _)) => Err((13, *place)),
        None => left.iter().map(clause).collect(),
    }
}

impl Clause {
    /// Whether the clause is true where just these letters are.
    fn is_true(&self, letters: &Letters) -> bool {
        self.without.is_some_and(|letter| letters.contains(&letter)) || !self.under_not.is_subset(letters)
    }
}

/// The letters that a round makes true. It sees only those that were true when it started.
fn round(clauses: &[Clause], at_start: &Letters) -> Letters {
    let due = clauses.iter().filter(|clause| clause.under_not.is_subset(at_start));
    due.filter_map(|clause| clause.without).filter(|letter| !at_start.contains(letter)).collect()
}

/// What the call that decides clauses answers: number and words.
pub fn clauses(question: &[u8]) -> (u32, [u64; 3]) {
    let clauses = match read(question) {
        Ok(clauses) => clauses,
        Err((number, place)) => return (number, [place, 0, 0]),
    };
    let (mut letters, mut rounds) = (Letters::new(), 0);
    loop {
        let more = round(&clauses, &letters);
        if more.is_empty() {
            break;
        }
        letters.extend(more);
        rounds += 1;
    }
    if clauses.iter().all(|clause| clause.is_true(&letters)) {
        (0, [1, letters.iter().map(|letter| 1 << letter).sum(), rounds])
    } else {
        (0, [0, 0, rounds])
    }
}
