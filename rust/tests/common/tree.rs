//! The tree of a question, grown apart from the library: a recursive-descent reader, formulas as boxes with their bytes,
//! widths in 128 bits, and document 01's reductions written out one by one.

use super::LETTERS;
use std::ops::AddAssign;

pub struct Formula<'q> {
    bytes: &'q [u8],
    shape: Shape<'q>,
}

enum Shape<'q> {
    Letter(u8),
    Not(Box<Formula<'q>>),
    Both(Connective, Box<Formula<'q>>, Box<Formula<'q>>),
}

#[derive(Clone, Copy, PartialEq, Eq)]
enum Connective {
    And,
    Or,
    Implies,
    Equiv,
}

/// A formula with its first byte's place and its length.
pub struct Placed<'q> {
    formula: Formula<'q>,
    pub start: usize,
    pub length: usize,
}

pub struct Question<'q> {
    pub left: Vec<Placed<'q>>,
    pub right: Vec<Placed<'q>>,
    pub connectives: u64,
}

type Refused = (u32, u64);

struct Reader<'q> {
    bytes: &'q [u8],
    at: usize,
    connectives: u64,
}

/// Reads a question, or gives the refusal's number and place.
pub fn read(bytes: &[u8]) -> Result<Question<'_>, Refused> {
    if bytes.len() > 212 {
        return Err((1, 212));
    }
    let mut reader = Reader { bytes, at: 0, connectives: 0 };
    let left = reader.side(0x10)?;
    let right = reader.side(0x20)?;
    if reader.at < bytes.len() {
        return Err((7, reader.at as u64));
    }
    Ok(Question { left, right, connectives: reader.connectives })
}

impl<'q> Reader<'q> {
    fn take(&mut self) -> Result<u8, Refused> {
        let byte = *self.bytes.get(self.at).ok_or((2, self.bytes.len() as u64))?;
        self.at += 1;
        Ok(byte)
    }

    /// A refusal at the byte taken last.
    fn refuse<T>(&self, number: u32) -> Result<T, Refused> {
        Err((number, self.at as u64 - 1))
    }

    fn side(&mut self, command: u8) -> Result<Vec<Placed<'q>>, Refused> {
        if self.take()? != command {
            return self.refuse(3);
        }
        let count = self.take()?;
        if count > 16 {
            return self.refuse(4);
        }
        let mut formulas = Vec::new();
        for _ in 0..count {
            let start = self.at;
            let formula = self.formula()?;
            formulas.push(Placed { formula, start, length: self.at - start });
        }
        Ok(formulas)
    }

    fn formula(&mut self) -> Result<Formula<'q>, Refused> {
        let start = self.at;
        let shape = self.shape()?;
        Ok(Formula { bytes: &self.bytes[start..self.at], shape })
    }

    fn shape(&mut self) -> Result<Shape<'q>, Refused> {
        let command = self.take()?;
        if command == 0x01 {
            let letter = self.take()?;
            return if letter < LETTERS { Ok(Shape::Letter(letter)) } else { self.refuse(5) };
        }
        if !(0x02..=0x06).contains(&command) {
            return self.refuse(3);
        }
        if self.connectives == 48 {
            return self.refuse(6);
        }
        self.connectives += 1;
        let first = Box::new(self.formula()?);
        if command == 0x02 {
            return Ok(Shape::Not(first));
        }
        let second = Box::new(self.formula()?);
        let connective = match command {
            0x03 => Connective::And,
            0x04 => Connective::Or,
            0x05 => Connective::Implies,
            _ => Connective::Equiv,
        };
        Ok(Shape::Both(connective, first, second))
    }
}

fn widths(formula: &Formula) -> (u128, u128) {
    match &formula.shape {
        Shape::Letter(_) => (1, 1),
        Shape::Not(part) => {
            let (left, right) = widths(part);
            (right, left)
        }
        Shape::Both(connective, f, g) => {
            let ((lf, rf), (lg, rg)) = (widths(f), widths(g));
            match connective {
                Connective::And => (lf * lg, rf + rg),
                Connective::Or => (lf + lg, rf * rg),
                Connective::Implies => (rf + lg, lf * rg),
                Connective::Equiv => (lf * lg + rf * rg, lf * rg + lg * rf),
            }
        }
    }
}

impl Question<'_> {
    pub fn width(&self) -> u128 {
        let left: u128 = self.left.iter().map(|placed| widths(&placed.formula).0).product();
        let right: u128 = self.right.iter().map(|placed| widths(&placed.formula).1).product();
        left * right
    }

    fn root(&self) -> Sequent<'_> {
        Sequent {
            left: self.left.iter().map(|placed| &placed.formula).collect(),
            right: self.right.iter().map(|placed| &placed.formula).collect(),
        }
    }

    /// The most formulas that a sequent holds on one way down, until no connective is left: which compound is reduced, on
    /// either side, and which premise is taken, `draw` chooses below a number. No sequent is closed.
    pub fn most_formulas(&self, mut draw: impl FnMut(usize) -> usize) -> usize {
        let mut sequent = self.root();
        let mut most = 0;
        loop {
            most = most.max(sequent.left.len() + sequent.right.len());
            let (left, right) = (compounds(&sequent.left), compounds(&sequent.right));
            if left.is_empty() && right.is_empty() {
                return most;
            }
            let chosen = draw(left.len() + right.len());
            let mut premises = match left.get(chosen) {
                Some(&at) => sequent.reduce_left(at),
                None => sequent.reduce_right(right[chosen - left.len()]),
            };
            sequent = premises.swap_remove(draw(premises.len()));
        }
    }

    /// The tree, cut off where it would have more than `limit` reductions.
    pub fn tree(&self, limit: usize) -> Tree {
        let root = self.root();
        let mut tree = Tree {
            end: End::Theorem,
            reductions: 0,
            closings: 0,
            equals: Equals::default(),
            derivation: vec![],
            closings_before: vec![],
            limit,
        };
        if let Err(end) = tree.grow(root) {
            tree.end = end;
        }
        tree
    }
}

#[derive(Clone, Copy, Debug, PartialEq, Eq)]
pub enum End {
    Theorem,
    Refuted(u64),
    /// More reductions than the limit.
    Large,
}

/// Closings that have to do with equal formulas with a connective on both sides.
#[derive(Clone, Copy, Default, Debug)]
pub struct Equals {
    /// Closings on equal formulas.
    pub closings: u64,
    /// Of these: after a reduction; with both places over 0.
    pub later: u64,
    pub over_0: u64,
    /// Of these: a higher left place has an equal, too; a higher right place is equal, too.
    pub more_left: u64,
    pub more_right: u64,
    /// Closings on a letter though equal formulas with a connective stand on both sides.
    pub letter_first: u64,
}

impl AddAssign for Equals {
    fn add_assign(&mut self, more: Equals) {
        self.closings += more.closings;
        self.later += more.later;
        self.over_0 += more.over_0;
        self.more_left += more.more_left;
        self.more_right += more.more_right;
        self.letter_first += more.letter_first;
    }
}

pub struct Tree {
    pub end: End,
    pub reductions: u64,
    /// On letters and on equal formulas.
    pub closings: u64,
    pub equals: Equals,
    /// The commands in the tree's order; a derivation where the end is `Theorem`.
    pub derivation: Vec<u8>,
    /// For each reduced sequent, in the tree's order: the closings before it.
    closings_before: Vec<u64>,
    limit: usize,
}

#[derive(Clone)]
struct Sequent<'q> {
    left: Vec<&'q Formula<'q>>,
    right: Vec<&'q Formula<'q>>,
}

fn letters(side: &[&Formula]) -> u64 {
    side.iter().fold(0, |set, formula| match formula.shape {
        Shape::Letter(letter) => set | 1 << letter,
        _ => set,
    })
}

impl Formula<'_> {
    fn is_letter(&self) -> bool {
        matches!(self.shape, Shape::Letter(_))
    }
}

fn compounds(side: &[&Formula]) -> Vec<usize> {
    (0..side.len()).filter(|&place| !side[place].is_letter()).collect()
}

fn first_compound(side: &[&Formula]) -> Option<usize> {
    side.iter().position(|formula| !formula.is_letter())
}

fn places_of(bytes: &[u8], side: &[&Formula]) -> Vec<usize> {
    (0..side.len()).filter(|&place| side[place].bytes == bytes).collect()
}

impl<'q> Sequent<'q> {
    /// Each left place whose formula has a connective and an equal on the right, with the right places of its equals.
    /// The lowest come first.
    fn equals(&self) -> Vec<(usize, Vec<usize>)> {
        let compounds = self.left.iter().enumerate().filter(|(_, formula)| !formula.is_letter());
        compounds
            .map(|(place, formula)| (place, places_of(formula.bytes, &self.right)))
            .filter(|(_, equals)| !equals.is_empty())
            .collect()
    }

    fn reduce_left(mut self, at: usize) -> Vec<Sequent<'q>> {
        let formula = self.left.remove(at);
        let mut other = self.clone();
        match &formula.shape {
            Shape::Letter(_) => unreachable!(),
            Shape::Not(f) => self.right.push(f),
            Shape::Both(connective, f, g) => match connective {
                Connective::And => {
                    self.left.insert(at, g);
                    self.left.insert(at, f);
                }
                Connective::Or => {
                    self.left.insert(at, f);
                    other.left.insert(at, g);
                    return vec![self, other];
                }
                Connective::Implies => {
                    self.left.insert(at, g);
                    other.right.push(f);
                    return vec![self, other];
                }
                Connective::Equiv => {
                    self.left.insert(at, g);
                    self.left.insert(at, f);
                    other.right.push(f);
                    other.right.push(g);
                    return vec![self, other];
                }
            },
        }
        vec![self]
    }

    fn reduce_right(mut self, at: usize) -> Vec<Sequent<'q>> {
        let formula = self.right.remove(at);
        let mut other = self.clone();
        match &formula.shape {
            Shape::Letter(_) => unreachable!(),
            Shape::Not(f) => self.left.push(f),
            Shape::Both(connective, f, g) => match connective {
                Connective::And => {
                    self.right.insert(at, f);
                    other.right.insert(at, g);
                    return vec![self, other];
                }
                Connective::Or => {
                    self.right.insert(at, g);
                    self.right.insert(at, f);
                }
                Connective::Implies => {
                    self.left.push(f);
                    self.right.insert(at, g);
                }
                Connective::Equiv => {
                    self.left.push(f);
                    self.right.insert(at, g);
                    other.left.push(g);
                    other.right.insert(at, f);
                    return vec![self, other];
                }
            },
        }
        vec![self]
    }
}

impl Tree {
    fn grow(&mut self, sequent: Sequent) -> Result<(), End> {
        if self.close(&sequent) {
            return Ok(());
        }
        let (command, at) = match (first_compound(&sequent.left), first_compound(&sequent.right)) {
            (Some(at), _) => (0x50 + sequent.left[at].bytes[0], at),
            (None, Some(at)) => (0x60 + sequent.right[at].bytes[0], at),
            (None, None) => return Err(End::Refuted(letters(&sequent.left))),
        };
        let premises = if command < 0x60 { sequent.reduce_left(at) } else { sequent.reduce_right(at) };
        self.closings_before.push(self.closings);
        if self.reductions == self.limit as u64 {
            return Err(End::Large);
        }
        self.reductions += 1;
        self.derivation.extend([command, at as u8]);
        premises.into_iter().try_for_each(|premise| self.grow(premise))
    }

    /// Closes the sequent on its lowest letter, otherwise on equal formulas at their lowest places, if it can.
    fn close(&mut self, sequent: &Sequent) -> bool {
        let both = letters(&sequent.left) & letters(&sequent.right);
        let equals = sequent.equals();
        if both != 0 {
            self.derivation.extend([0x41, both.trailing_zeros() as u8]);
            self.equals.letter_first += u64::from(!equals.is_empty());
        } else if let Some((left, rights)) = equals.first() {
            self.derivation.extend([0x42, *left as u8, rights[0] as u8]);
            self.equals.closings += 1;
            self.equals.later += u64::from(self.reductions > 0);
            self.equals.over_0 += u64::from(*left > 0 && rights[0] > 0);
            self.equals.more_left += u64::from(equals.len() > 1);
            self.equals.more_right += u64::from(rights.len() > 1);
        } else {
            return false;
        }
        self.closings += 1;
        true
    }

    /// The derivation's length, from the counts alone: 2 for each reduction and each closing on a letter, 3 for each
    /// closing on equal formulas.
    pub fn length(&self) -> u64 {
        let on_letters = self.closings - self.equals.closings;
        2 * (self.reductions + on_letters) + 3 * self.equals.closings
    }

    /// What the call that decides answers with this budget: number and words.
    pub fn decided(&self, budget: u64) -> (u32, [u64; 4]) {
        if budget < self.closings_before.len() as u64 {
            return (9, [0, 0, budget, self.closings_before[budget as usize]]);
        }
        match self.end {
            End::Theorem => (0, [0, 0, self.reductions, self.closings]),
            End::Refuted(state) => (0, [1, state, self.reductions, self.closings]),
            End::Large => panic!("the tree was cut off before this budget"),
        }
    }

    /// What the writer answers with this budget and room: number and words.
    pub fn derived(&self, budget: u64, room: usize) -> (u32, [u64; 3]) {
        let (number, [refuted, state, reductions, closings]) = self.decided(budget);
        let length = self.length();
        match (number, refuted) {
            (0, 0) if length <= room as u64 => (0, [length, reductions, closings]),
            (0, 0) => (11, [length, 0, 0]),
            (0, _) => (10, [state, reductions, closings]),
            _ => (number, [reductions, closings, 0]),
        }
    }
}
