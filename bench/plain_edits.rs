//! What one `coef` on `less` costs over the same contents in plain hash maps and lists, in microseconds of the processor, with
//! 1,000 rows and with 60,000: what the caches miss there, any structure of this size misses.
//! rustc -O --edition 2021 -C target-cpu=x86-64-v2 bench/plain_edits.rs -o plain_edits && ./plain_edits
use std::collections::HashMap;

#[derive(Clone, Copy, PartialEq)]
struct Ratio {
    num: i128,
    den: i128,
}

fn whole(num: i128) -> Ratio {
    Ratio { num, den: 1 }
}

/// A variable in a function: its number, or an address as long as the program's.
trait Key: Copy + PartialEq {
    fn of(number: u32) -> Self;
    fn number(&self) -> u32;
}

impl Key for u32 {
    fn of(number: u32) -> u32 {
        number
    }
    fn number(&self) -> u32 {
        *self
    }
}

#[derive(Clone, Copy, PartialEq)]
struct Address {
    root: u8,
    number: u32,
    positions: [u16; 40],
    depth: u8,
}

impl Key for Address {
    fn of(number: u32) -> Address {
        Address { root: 0, number, positions: [0; 40], depth: 0 }
    }
    fn number(&self) -> u32 {
        self.number
    }
}

#[derive(Clone)]
struct Function<K> {
    terms: Vec<(K, Ratio)>,
    constant: Ratio,
}

#[derive(Clone)]
struct Row<K> {
    name: String,
    function: Function<K>,
    bound: Ratio,
}

/// A model and its bridging, in which each row `>=` is kept and its negation is the solver's.
struct Bridged<K> {
    variables: HashMap<String, u32>,
    names: HashMap<String, u32>,
    rows: Vec<Row<K>>,
    variable_index: HashMap<u32, usize>,
    row_index: HashMap<u32, usize>,
    expressions: HashMap<u32, Function<K>>,
    kept: HashMap<u32, Function<K>>,
    solver: Vec<Function<usize>>,
}

impl<K: Key> Bridged<K> {
    fn new(rows: u32) -> Bridged<K> {
        let variables = rows / 10;
        let mut made = Bridged {
            variables: (0..variables).map(|n| (format!("x{n}"), n)).collect(),
            names: (0..rows).map(|n| (format!("r{n}"), n)).collect(),
            rows: Vec::new(),
            variable_index: (0..variables).map(|n| (n, n as usize)).collect(),
            row_index: HashMap::new(),
            expressions: HashMap::new(),
            kept: HashMap::new(),
            solver: Vec::new(),
        };
        for n in 0..variables {
            let function = Function { terms: vec![(K::of(n), whole(1))], constant: whole(0) };
            made.expressions.insert(n, function);
        }
        for n in 0..rows {
            let mut terms = vec![(K::of(n % variables), whole(1)), (K::of((n * 7 + 1) % variables), whole(2))];
            terms.sort_by_key(|term| term.0.number());
            let function = Function { terms, constant: whole(0) };
            made.rows.push(Row { name: format!("r{n}"), function, bound: whole(n as i128 % 7) });
        }
        for n in 0..rows {
            let function = made.rows[n as usize].function.clone();
            made.solver.push(made.leaf(&function));
            made.row_index.insert(n, n as usize);
            made.kept.insert(n, function);
        }
        made
    }

    fn leaf(&self, function: &Function<K>) -> Function<usize> {
        let index = |key: &K| self.variable_index[&self.expressions[&key.number()].terms[0].0.number()];
        let negated = |ratio: &Ratio| Ratio { num: -ratio.num, den: ratio.den };
        let mut terms: Vec<_> = function.terms.iter().map(|(key, ratio)| (index(key), negated(ratio))).collect();
        terms.sort_by_key(|term| term.0);
        Function { terms, constant: function.constant }
    }

    /// Whether the solver's row changed.
    fn coef(&mut self, row: &str, variable: &str, value: i128) -> bool {
        let (number, variable) = (self.names[row], self.variables[variable]);
        let mut new = self.rows[number as usize].clone();
        for term in &mut new.function.terms {
            if term.0.number() == variable {
                term.1 = whole(value);
            }
        }
        let old = std::mem::replace(&mut self.rows[number as usize], new);
        let new = &self.rows[number as usize];
        if old.name != new.name || old.bound != new.bound || old.function.terms == new.function.terms {
            return false;
        }
        let leaf = self.leaf(&new.function);
        let place = self.row_index[&number];
        if self.solver[place].terms == leaf.terms {
            return false;
        }
        self.kept.insert(number, new.function.clone());
        self.solver[place] = leaf;
        true
    }
}

#[repr(C)]
struct Time {
    seconds: i64,
    nanoseconds: i64,
}

extern "C" {
    fn clock_gettime(clock: i32, time: *mut Time) -> i32;
}

/// The microseconds of the processor that this thread has taken.
fn spent() -> f64 {
    let mut time = Time { seconds: 0, nanoseconds: 0 };
    // SAFETY: the time is there to be written, and Linux's clock 3 is that of the thread.
    unsafe { clock_gettime(3, &mut time) };
    time.seconds as f64 * 1e6 + time.nanoseconds as f64 / 1e3
}

fn measure<K: Key>(what: &str, rows: u32) {
    let edits = 20_000;
    let mut best = f64::MAX;
    for _ in 0..5 {
        let mut bridged = Bridged::<K>::new(rows);
        let place = |n: u32| (n as u64 * 7919 % rows as u64) as u32;
        let lines: Vec<_> = (0..edits).map(|n| (format!("r{}", place(n)), format!("x{}", place(n) % (rows / 10)), n as i128 + 2)).collect();
        let begin = spent();
        let changed = lines.iter().filter(|(row, variable, value)| bridged.coef(row, variable, *value)).count();
        best = best.min((spent() - begin) / edits as f64);
        assert_eq!(changed, edits as usize);
    }
    println!("{what:24}{rows:7} rows {best:7.2} us");
}

fn main() {
    for rows in [1_000, 60_000] {
        measure::<u32>("numbers of variables", rows);
        measure::<Address>("addresses of 92 bytes", rows);
    }
}
