//! Derivations, apart from the library: a checker and a prover that reduces in a random order. Formulas are slices of
//! the question, the reductions a table. Questions here are accepted ones.

use super::prng::Prng;
use super::LETTERS;

const LEFT: usize = 0;
const RIGHT: usize = 1;
const F: usize = 0;
const G: usize = 1;

type Parts = &'static [(usize, usize)];

/// The premises by connective (from NOT on) and side: which part goes to which side.
const PREMISES: [[&[Parts]; 2]; 5] = [
    [&[&[(F, RIGHT)]], &[&[(F, LEFT)]]],
    [&[&[(F, LEFT), (G, LEFT)]], &[&[(F, RIGHT)], &[(G, RIGHT)]]],
    [&[&[(F, LEFT)], &[(G, LEFT)]], &[&[(F, RIGHT), (G, RIGHT)]]],
    [&[&[(G, LEFT)], &[(F, RIGHT)]], &[&[(F, LEFT), (G, RIGHT)]]],
    [&[&[(F, LEFT), (G, LEFT)], &[(F, RIGHT), (G, RIGHT)]], &[&[(F, LEFT), (G, RIGHT)], &[(G, LEFT), (F, RIGHT)]]],
];

#[derive(Clone)]
struct Sequent<'q>([Vec<&'q [u8]>; 2]);

/// Parts the first formula from the rest.
pub fn first_formula(bytes: &[u8]) -> (&[u8], &[u8]) {
    let mut due = 1;
    let mut end = 0;
    while due > 0 {
        match bytes[end] {
            1 => {
                due -= 1;
                end += 2
            }
            2 => end += 1,
            _ => {
                due += 1;
                end += 1
            }
        }
    }
    bytes.split_at(end)
}

impl<'q> Sequent<'q> {
    fn of(question: &'q [u8]) -> Sequent<'q> {
        let mut rest = question;
        Sequent([LEFT, RIGHT].map(|_| {
            let count = rest[1];
            rest = &rest[2..];
            (0..count)
                .map(|_| {
                    let (formula, behind) = first_formula(rest);
                    rest = behind;
                    formula
                })
                .collect()
        }))
    }

    fn has_letter(&self, side: usize, letter: u8) -> bool {
        self.0[side].contains(&&[1, letter][..])
    }

    fn premises(&self, side: usize, place: usize) -> Vec<Sequent<'q>> {
        let formula = self.0[side][place];
        let (f, g) = first_formula(&formula[1..]);
        let parts = [f, g];
        PREMISES[formula[0] as usize - 2][side]
            .iter()
            .map(|goes| {
                let mut premise = self.clone();
                let kept: Vec<&[u8]> =
                    goes.iter().filter(|(_, to)| *to == side).map(|(part, _)| parts[*part]).collect();
                premise.0[side].splice(place..=place, kept);
                premise.0[1 - side].extend(goes.iter().filter(|(_, to)| *to != side).map(|(part, _)| parts[*part]));
                premise
            })
            .collect()
    }

    /// Whether equal formulas with a connective stand at these places; otherwise the checker's number.
    fn equals(&self, left: usize, right: usize) -> Result<(), u32> {
        match (self.0[LEFT].get(left), self.0[RIGHT].get(right)) {
            (Some(formula), Some(other)) if formula == other && formula[0] != 1 => Ok(()),
            (Some(_), Some(_)) => Err(26),
            _ => Err(22),
        }
    }

    /// The side and place of each formula with a connective.
    fn compounds(&self) -> Vec<(usize, usize)> {
        [LEFT, RIGHT]
            .iter()
            .flat_map(|&side| (0..self.0[side].len()).map(move |place| (side, place)))
            .filter(|&(side, place)| self.0[side][place][0] != 1)
            .collect()
    }

    /// Each command that closes.
    fn closing(&self) -> Vec<Vec<u8>> {
        let letters = (0..LETTERS).filter(|&letter| self.has_letter(LEFT, letter) && self.has_letter(RIGHT, letter));
        let on_letters = letters.map(|letter| vec![0x41, letter]);
        let pairs = (0..self.0[LEFT].len()).flat_map(|left| (0..self.0[RIGHT].len()).map(move |right| (left, right)));
        let equals = pairs.filter(|&(left, right)| self.equals(left, right).is_ok());
        on_letters.chain(equals.map(|(left, right)| vec![0x42, left as u8, right as u8])).collect()
    }

    /// Obeys the first command: how many bytes it takes and the premises that then wait, or the checker's number.
    fn obey(&self, derivation: &[u8]) -> Result<(usize, Vec<Sequent<'q>>), u32> {
        let (side, command, place): (_, _, usize) = match *derivation {
            [] | [_] | [0x42, _] => return Err(20),
            [0x41, letter, ..] if self.has_letter(LEFT, letter) && self.has_letter(RIGHT, letter) => {
                return Ok((2, vec![]));
            }
            [0x41, ..] => return Err(24),
            [0x42, left, right, ..] => {
                return self.equals(left.into(), right.into()).map(|()| (3, vec![]));
            }
            [command @ 0x52..=0x56, place, ..] => (LEFT, command, place.into()),
            [command @ 0x62..=0x66, place, ..] => (RIGHT, command, place.into()),
            _ => return Err(21),
        };
        match self.0[side].get(place) {
            None => Err(22),
            Some(formula) if formula[0] != command % 16 => Err(23),
            Some(_) => Ok((2, self.premises(side, place))),
        }
    }
}

/// The checker's number and place; 0 and 0 where the derivation passes.
pub fn check(question: &[u8], derivation: &[u8]) -> (u32, u64) {
    let mut waiting = vec![Sequent::of(question)];
    let mut at = 0;
    while let Some(sequent) = waiting.pop() {
        match sequent.obey(&derivation[at..]) {
            Ok((taken, premises)) => {
                at += taken;
                waiting.extend(premises.into_iter().rev());
            }
            Err(number) => return (number, at as u64),
        }
    }
    if at < derivation.len() {
        return (25, at as u64);
    }
    (0, 0)
}

/// The commands of a derivation, one by one; what is left at its end may be cut.
pub fn commands(derivation: &[u8]) -> Vec<&[u8]> {
    let mut commands = vec![];
    let mut rest = derivation;
    while let Some(&command) = rest.first() {
        let (first, behind) = rest.split_at(rest.len().min(if command == 0x42 { 3 } else { 2 }));
        commands.push(first);
        rest = behind;
    }
    commands
}

/// What the random-order prover found.
pub enum Found {
    Derivation(Vec<u8>),
    Refuted,
    TooLarge,
}

/// Proves the question with reductions in a random order, closing at random letters and at random equal formulas and
/// sometimes later than it could, in at most `limit` commands.
pub fn prove(question: &[u8], rng: &mut Prng, limit: usize) -> Found {
    let mut derivation = vec![];
    let mut waiting = vec![Sequent::of(question)];
    for _ in 0..limit {
        let Some(sequent) = waiting.pop() else { break };
        let compound = sequent.compounds();
        let closing = sequent.closing();
        if !closing.is_empty() && (compound.is_empty() || rng.chance(80)) {
            derivation.extend(&closing[rng.below(closing.len())]);
        } else if compound.is_empty() {
            return Found::Refuted;
        } else {
            let (side, place) = rng.pick(&compound);
            derivation.extend([0x50 + 0x10 * side as u8 + sequent.0[side][place][0], place as u8]);
            waiting.extend(sequent.premises(side, place).into_iter().rev());
        }
    }
    match waiting.is_empty() {
        true => Found::Derivation(derivation),
        false => Found::TooLarge,
    }
}
