//! The same benchmark as `simplex_bench`, written plainly in Rust: fractions of 128 bits, a dense
//! and a sparse board, and Bland's rule in two phases with a sweep between them. After the word
//! `whole` it solves on the board of whole numbers instead.
mod dense_board;
#[allow(dead_code)]
mod fraction;
mod models;
mod sparse_board;
mod whole_board;

use dense_board::DenseBoard;
use fraction::{ONE, Ratio, ZERO, cmp_quotients};
use sparse_board::SparseBoard;
use whole_board::WholeBoard;

struct Form {
    m: usize,
    c: usize,
    /// The entries that aren't 0, each beside its place in the matrix, row by row.
    terms: Vec<(usize, Ratio)>,
    right: Vec<Ratio>,
    costs: Vec<Ratio>,
}

impl Form {
    /// The entries of each row that aren't 0, each beside its column.
    fn rows(&self) -> impl Iterator<Item = impl Iterator<Item = (usize, Ratio)> + Clone + '_> + '_ {
        let mut rest = &self.terms[..];
        (0..self.m).map(move |i| {
            let from = i * self.c;
            let count = rest.iter().take_while(|term| term.0 < from + self.c).count();
            let (row, others) = rest.split_at(count);
            rest = others;
            row.iter().map(move |&(place, entry)| (place - from, entry))
        })
    }
}

const ALLOWANCE: u64 = 1_000_000;

/// A board. The first cost row is in use where a call says so.
trait Tableau: Sized {
    fn start(form: &Form) -> Option<Self>;
    fn pivot(&mut self, in_first: bool, r: usize, q: usize) -> Option<()>;
    fn entry(&self, r: usize, q: usize) -> Ratio;
    fn right(&self, r: usize) -> Ratio;
    fn price(&self, in_first: bool, q: usize) -> Ratio;
    fn entering(&mut self, in_first: bool) -> Option<usize>;
    /// The row that leaves for column q.
    fn leaving(&mut self, q: usize) -> Option<usize> {
        least_ratio(self, q)
    }
    fn swept_column(&self, r: usize) -> Option<usize>;
    fn basis(&self) -> &[usize];
}

fn least_ratio<T: Tableau>(board: &T, q: usize) -> Option<usize> {
    let mut best: Option<(usize, Ratio)> = None;
    for i in 0..board.basis().len() {
        let by = board.entry(i, q);
        if by.num <= 0 {
            continue;
        }
        let before = best.as_ref().is_none_or(|(k, over)| {
            cmp_quotients(&board.right(i), &by, &board.right(*k), over)
                .then(board.basis()[i].cmp(&board.basis()[*k]))
                .is_lt()
        });
        if before {
            best = Some((i, by));
        }
    }
    best.map(|(i, _)| i)
}

#[derive(Clone, Copy, PartialEq)]
enum Phase {
    First,
    Sweep,
    Second,
}

enum Turn {
    Pivot(Phase, usize, usize),
    Infeasible(Vec<Ratio>),
    Stuck,
    Unbounded(usize),
    Optimal,
}

fn enters<T: Tableau>(board: &mut T, phase: Phase, q: usize) -> Turn {
    board.leaving(q).map_or(Turn::Unbounded(q), |r| Turn::Pivot(phase, r, q))
}

fn turn<T: Tableau>(board: &mut T, form: &Form, phase: Phase) -> Turn {
    if phase == Phase::First {
        if let Some(q) = board.entering(true) {
            return enters(board, phase, q);
        }
        if (0..form.m).any(|i| board.basis()[i] >= form.c && board.right(i).num > 0) {
            let multiplier = |k: usize| ONE.sub(&board.price(true, form.c + k)).ok();
            return (0..form.m).map(multiplier).collect::<Option<_>>().map_or(Turn::Stuck, Turn::Infeasible);
        }
    }
    if phase != Phase::Second {
        let swept = |i: usize| Some((i, board.swept_column(i)?));
        let mut artificial = (0..form.m).filter(|&i| board.basis()[i] >= form.c);
        if let Some((r, q)) = artificial.find_map(swept) {
            return Turn::Pivot(Phase::Sweep, r, q);
        }
    }
    board.entering(false).map_or(Turn::Optimal, |q| enters(board, Phase::Second, q))
}

/// What the allowance leads to, mixed into one number.
fn solve<T: Tableau>(form: &Form, pivots: u64) -> u64 {
    let Some(mut board) = T::start(form) else {
        return mixed_basis(3, &(form.c..form.c + form.m).collect::<Vec<_>>());
    };
    let mut phase = Phase::First;
    let mut left = pivots;
    loop {
        match turn(&mut board, form, phase) {
            Turn::Optimal => {
                let sum = mixed(mixed(5, &point(&board, form)), &multipliers(&board, form));
                return mixed_basis(sum, board.basis());
            }
            Turn::Infeasible(multipliers) => return mixed_basis(mixed(7, &multipliers), board.basis()),
            Turn::Unbounded(q) => {
                let sum = mixed(mixed(11, &point(&board, form)), &ray(&board, form, q));
                return mixed_basis(sum, board.basis());
            }
            Turn::Stuck | Turn::Pivot(..) if left == 0 => {
                return mixed_basis(2, board.basis()).wrapping_mul(31).wrapping_add(pivots);
            }
            Turn::Stuck => return mixed_basis(3, board.basis()),
            Turn::Pivot(next, r, q) => {
                left -= 1;
                phase = next;
                if board.pivot(phase == Phase::First, r, q).is_none() {
                    return mixed_basis(3, board.basis());
                }
            }
        }
    }
}

fn point<T: Tableau>(board: &T, form: &Form) -> Vec<Ratio> {
    let mut x = vec![ZERO; form.c];
    for (i, &column) in board.basis().iter().enumerate() {
        if column < form.c {
            x[column] = board.right(i);
        }
    }
    x
}

fn ray<T: Tableau>(board: &T, form: &Form, q: usize) -> Vec<Ratio> {
    let mut d = vec![ZERO; form.c];
    for (i, &column) in board.basis().iter().enumerate() {
        if column < form.c {
            d[column] = board.entry(i, q).neg();
        }
    }
    d[q] = ONE;
    d
}

fn multipliers<T: Tableau>(board: &T, form: &Form) -> Vec<Ratio> {
    (0..form.m).map(|k| board.price(false, form.c + k).neg()).collect()
}

/// The numbers mixed into a sum.
fn mixed(start: u64, numbers: &[Ratio]) -> u64 {
    numbers.iter().fold(start, |sum, q| {
        let digest = parts(q.num.unsigned_abs()) ^ parts(q.den);
        sum.wrapping_mul(31).wrapping_add(digest).wrapping_add(u64::from(q.num < 0))
    })
}

/// Both halves of a number.
fn parts(n: u128) -> u64 {
    (n as u64).wrapping_add(((n >> 64) as u64).wrapping_mul(37))
}

fn mixed_basis(start: u64, basis: &[usize]) -> u64 {
    basis.iter().fold(start, |sum, &column| sum.wrapping_mul(31).wrapping_add(column as u64))
}

/// Draws by a linear congruence.
struct Draw {
    state: u64,
}

impl Draw {
    fn below(&mut self, n: u64) -> u64 {
        self.state = (self.state * 1103515245 + 12345) % 0x8000_0000;
        self.state / 65536 % n
    }
}

/// A form of as many rows and columns, of whose entries one in `sparse` isn't 0. The point that is drawn first meets its rows,
/// each negated where its right side would be below 0.
fn form(seed: u64, m: usize, c: usize, sparse: u64, greatest: u64) -> Form {
    let mut draw = Draw { state: seed };
    let point: Vec<i64> = (0..c).map(|_| draw.below(4) as i64).collect();
    let costs = (0..c).map(|_| whole(draw.below(9) as i64)).collect();
    let mut terms = Vec::with_capacity(m * c);
    let mut right = Vec::with_capacity(m);
    let mut row = Vec::with_capacity(c);
    for i in 0..m {
        let mut entry = |_| {
            let stands = draw.below(sparse) == 0;
            let number = draw.below(2 * greatest + 1) as i64 - greatest as i64;
            if stands { number } else { 0 }
        };
        row.clear();
        row.extend((0..c).map(&mut entry));
        let side: i64 = row.iter().zip(&point).map(|(entry, x)| entry * x).sum();
        let sign = if side < 0 { -1 } else { 1 };
        let entries = row.iter().enumerate().filter(|(_, entry)| **entry != 0);
        terms.extend(entries.map(|(j, entry)| (i * c + j, whole(entry * sign))));
        right.push(whole(side.abs()));
    }
    Form { m, c, terms, right, costs }
}

fn whole(n: i64) -> Ratio {
    Ratio { num: n.into(), den: 1 }
}

fn main() {
    let words: Vec<String> = std::env::args().skip(1).collect();
    let words: Vec<&str> = words.iter().map(String::as_str).collect();
    let (is_whole, words) = match words.split_first() {
        Some((&"whole", words)) => (true, words),
        _ => (false, &words[..]),
    };
    let sum = match *words {
        [kind @ ("chain" | "transport" | "blend"), rows, columns, board, times] => {
            let board = if is_whole { "whole" } else { board };
            of_model(kind, rows, columns, board, times)
        }
        [rows, columns, sparse, greatest, board, forms] => {
            let board = if is_whole { "whole" } else { board };
            random(rows, columns, sparse, greatest, board, forms)
        }
        _ => None,
    };
    match sum {
        Some(sum) => println!("{sum}"),
        None => println!(
            "usage: simplex_plain [whole] ROWS COLUMNS SPARSE GREATEST dense|sparse FORMS, or \
             simplex_plain [whole] chain|transport|blend ROWS COLUMNS dense|sparse TIMES"
        ),
    }
}

fn solve_on(board: &str) -> Option<fn(&Form, u64) -> u64> {
    match board {
        "dense" => Some(solve::<DenseBoard>),
        "sparse" => Some(solve::<SparseBoard>),
        "whole" => Some(solve::<WholeBoard>),
        _ => None,
    }
}

fn random(
    rows: &str,
    columns: &str,
    sparse: &str,
    greatest: &str,
    board: &str,
    forms: &str,
) -> Option<u64> {
    let solve = solve_on(board)?;
    let (rows, columns) = (rows.parse().ok()?, columns.parse().ok()?);
    let (sparse, greatest) = (sparse.parse().ok()?, greatest.parse().ok()?);
    let mut sum = 0u64;
    for seed in 1..=forms.parse().ok()? {
        let form = form(seed, rows, columns, sparse, greatest);
        sum = sum.wrapping_mul(31).wrapping_add(solve(&form, ALLOWANCE));
    }
    Some(sum)
}

fn of_model(kind: &str, rows: &str, columns: &str, board: &str, times: &str) -> Option<u64> {
    let form = models::model(kind, rows.parse().ok()?, columns.parse().ok()?)?;
    let solve = solve_on(board)?;
    let answers = (0..times.parse().ok()?).map(|_| solve(&form, ALLOWANCE));
    Some(answers.fold(0u64, |sum, one| sum.wrapping_mul(31).wrapping_add(one)))
}
