//! A panel budgets a whole wall of questions at login.
//!
//! Before any question is decided, the panel asks for the width of each. A question of width W with c connectives takes
//! at most c times W reductions, so the sum over the wall is known before the start. A wall whose sum is too large is
//! turned away as a whole; on any other, each question is decided with its own bound as the budget, and none is spent.

use gekunday::{decide, width, Kind, Refusal};

/// Reductions that a login may take.
const LOGIN: u64 = 1_000;

// Formulas are bytes: each connective comes before its parts.

fn letter(k: u8) -> Vec<u8> {
    vec![0x01, k]
}

fn not(f: Vec<u8>) -> Vec<u8> {
    [vec![0x02], f].concat()
}

fn and(f: Vec<u8>, g: Vec<u8>) -> Vec<u8> {
    [vec![0x03], f, g].concat()
}

fn or(f: Vec<u8>, g: Vec<u8>) -> Vec<u8> {
    [vec![0x04], f, g].concat()
}

fn implies(f: Vec<u8>, g: Vec<u8>) -> Vec<u8> {
    [vec![0x05], f, g].concat()
}

fn equiv(f: Vec<u8>, g: Vec<u8>) -> Vec<u8> {
    [vec![0x06], f, g].concat()
}

fn question(left: &[Vec<u8>], right: &[Vec<u8>]) -> Vec<u8> {
    [
        &[0x10, left.len() as u8][..],
        &left.concat(),
        &[0x20, right.len() as u8],
        &right.concat(),
    ]
    .concat()
}

/// EQUIV over the letters from 0 on: the widest formula with so many connectives.
fn parity(connectives: u8) -> Vec<u8> {
    (1..=connectives).fold(letter(0), |before, k| equiv(before, letter(k)))
}

/// One cell of the wall: what it is called, and its question.
type Cell = (&'static str, Vec<u8>);

/// Each cell's budget, or why a cell is no question. Nothing is decided here.
fn budgets(wall: &[Cell]) -> Result<Vec<u64>, (&'static str, Refusal)> {
    wall.iter()
        .map(|(name, question)| match width(question) {
            Ok(size) => {
                let budget = size.reductions_bound();
                println!(
                    "  {name:<12} W {:<6} c {:<3} budget {budget}",
                    size.width, size.connectives
                );
                Ok(budget)
            }
            Err(refusal) => Err((*name, refusal)),
        })
        .collect()
}

fn login(title: &str, wall: &[Cell]) {
    println!("{title}");
    let budgets = match budgets(wall) {
        Ok(budgets) => budgets,
        Err((name, refusal)) => {
            return println!("  turned away: {name} is no question ({refusal})\n")
        }
    };
    // Each budget is below 2 to the power 54: a wall of a thousand cells cannot overflow, and a larger one saturates.
    let total = budgets
        .iter()
        .fold(0u64, |sum, &budget| sum.saturating_add(budget));
    if total > LOGIN {
        return println!(
            "  turned away: {total} reductions are over {LOGIN}; nothing was decided\n"
        );
    }
    println!("  at most {total} reductions, within {LOGIN}: start");

    let mut made = 0;
    for ((name, question), budget) in wall.iter().zip(budgets) {
        let answer = match decide(question, budget) {
            Ok(verdict) => {
                made += verdict.reductions;
                match verdict.kind {
                    Kind::Theorem => "always".to_string(),
                    Kind::Refuted(state) => format!("not in state {state:#b}"),
                    Kind::Spent => "spent".to_string(),
                }
            }
            Err(refusal) => refusal.to_string(),
        };
        println!("  {name:<12} {answer}");
    }
    println!("  {made} reductions made\n");
}

fn main() {
    let (p, q, r) = (|| letter(0), || letter(1), || letter(2));
    let small = vec![
        (
            "chain",
            question(
                &[implies(p(), q()), implies(q(), r())],
                &[implies(p(), r())],
            ),
        ),
        ("either", question(&[or(p(), q())], &[and(p(), q())])),
        ("excluded", question(&[], &[or(p(), not(p()))])),
        (
            "distributes",
            question(
                &[and(p(), or(q(), r()))],
                &[or(and(p(), q()), and(p(), r()))],
            ),
        ),
        // The same formula on both sides is closed at once, whatever its width.
        ("parity", question(&[parity(3)], &[parity(3)])),
    ];
    login("A wall within the budget", &small);

    let mut large = small.clone();
    large.push(("wide", question(&[], &[parity(20)])));
    login("The same wall with one wide cell", &large);

    let mut broken = small;
    broken[2].1.pop();
    login("The same wall with a broken cell", &broken);
}
