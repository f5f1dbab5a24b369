//! The board of whole numbers: dense, row by row, changed in place.
//!
//! Row i stands over one denominator. Where it is narrow (`dens[i] > 0`), its number in column j is
//! `cell(i, j) / dens[i]` and its right side is `sides[i] / dens[i]`; no numerator is larger than
//! `bounds[i]`, and `bounds[i]` and `dens[i]` are below 2^63. These fractions needn't be in lowest
//! terms. Where it is wide (`dens[i] == 0`), its numbers are the fractions `wides[i]`, and its cells
//! are 0. A number that isn't 0 has its bit; a number without a bit is 0.
//!
//! Rows m and m + 1 are the second and the first cost row; they have no right side.
//!
//! While row i and the new row r are narrow, no number of a pivot passes 128 bits: with
//! D = dens[i] * p, the number is X / D, the multiple is Y / D, |X| and |Y| are below 2^126 and so is
//! D. What a sum asks for in lowest terms divides, or is at most, X, Y, X - Y or D. So only
//! `pivot_wide` tests.
use crate::fraction::{ONE, Ratio, ZERO, cmp_quotients};
use crate::{Form, Tableau};
use std::cmp::Ordering;

/// Numerators, denominators and bounds of narrow rows are below it.
const END: u64 = 1 << 63;

pub struct WholeBoard {
    m: usize,
    c: usize,
    /// How many columns there are.
    width: usize,
    /// Column j of row i at `i * width + j`; the cost rows behind them.
    cells: Vec<i64>,
    sides: Vec<i64>,
    dens: Vec<u64>,
    bounds: Vec<u64>,
    /// Fractions by column, the right side behind them. Those without a bit mean nothing.
    wides: Vec<Vec<Ratio>>,
    /// The wide rows among the first m.
    wide_rows: Vec<u32>,
    /// Word w of row i at `i * words + w`.
    bits: Vec<u64>,
    words: usize,
    /// No real column below it has a negative price, by the second and by the first costs.
    low: [usize; 2],
    /// The first `entries` are the rows that aren't 0 in the gathered column, with their numerators
    /// (0 for a wide row).
    column: Vec<(u32, i64)>,
    entries: usize,
    gathered: usize,
    /// The first `steps` are the new row's columns and numerators; and its words of bits.
    step: Vec<(u32, i64)>,
    steps: usize,
    step_words: Vec<(u32, u64)>,
    /// The new row's numerators by column where `is_spread`, and zeros else.
    step_at: Vec<i64>,
    is_spread: bool,
    /// Room for the quotients of a row.
    quotients: Vec<i64>,
    basis: Vec<usize>,
}

/// The new row's numbers are the numerators of `step`, and `side`, over p.
#[derive(Clone, Copy)]
struct NewRow {
    p: u64,
    /// No numerator is larger.
    greatest: u64,
    side: i64,
}

/// For the column of each bit of row i.
#[inline(always)]
fn each(bits: &[u64], words: usize, i: usize, mut f: impl FnMut(usize)) {
    for (w, &word) in bits[i * words..][..words].iter().enumerate() {
        let mut rest = word;
        while rest != 0 {
            f(w * 64 + rest.trailing_zeros() as usize);
            rest &= rest - 1;
        }
    }
}

/// The same until it answers false; tells whether it never did.
#[inline(always)]
fn all_of(bits: &[u64], words: usize, i: usize, mut f: impl FnMut(usize) -> bool) -> bool {
    for (w, &word) in bits[i * words..][..words].iter().enumerate() {
        let mut rest = word;
        while rest != 0 {
            if !f(w * 64 + rest.trailing_zeros() as usize) {
                return false;
            }
            rest &= rest - 1;
        }
    }
    true
}

#[inline]
fn gcd(x: u64, y: u64) -> u64 {
    if x == 1 || y == 1 {
        return 1;
    }
    if x == 0 || y == 0 {
        return x | y;
    }
    let zeros = (x | y).trailing_zeros();
    let mut x = x >> x.trailing_zeros();
    let mut y = y >> y.trailing_zeros();
    while x != y {
        let shift = x.wrapping_sub(y).trailing_zeros();
        let apart = x.abs_diff(y);
        x = x.min(y);
        y = apart >> shift;
    }
    x << zeros
}

/// The gcd of a divisor so far, above 0, with a number more: the remainder first, as it is mostly small.
#[inline]
fn join(g: u64, n: i64) -> u64 {
    let rest = n.unsigned_abs() % g;
    if rest == 0 { g } else { gcd(rest, g) }
}

/// The same with a long number.
#[inline]
fn join_long(g: u64, n: i128) -> u64 {
    let size = n.unsigned_abs();
    let rest = if size < END as u128 { size as u64 % g } else { (size % g as u128) as u64 };
    if rest == 0 { g } else { gcd(rest, g) }
}

/// Of an odd number, modulo 2^64. What is made with it is tested, so nothing rests on it.
#[inline]
fn inverse(odd: u64) -> u64 {
    let mut x = odd.wrapping_mul(3) ^ 2;
    for _ in 0..4 {
        x = x.wrapping_mul(2u64.wrapping_sub(odd.wrapping_mul(x)));
    }
    x
}

/// Division by one number of many: exact or None.
#[derive(Clone, Copy)]
struct Divisor {
    g: i64,
    zeros: u32,
    odd: i64,
}

impl Divisor {
    #[inline]
    fn new(g: u64) -> Divisor {
        let zeros = g.trailing_zeros();
        Divisor { g: g as i64, zeros, odd: inverse(g >> zeros) as i64 }
    }

    /// The quotient, where there is one below 2^63 in magnitude.
    #[inline(always)]
    fn quotient(&self, n: i128) -> Option<i64> {
        let quotient = ((n >> self.zeros) as i64).wrapping_mul(self.odd);
        if quotient as i128 * self.g as i128 == n && quotient != i64::MIN { Some(quotient) } else { None }
    }
}

/// In lowest terms. It is known to fit.
fn fraction(num: i128, den: u128) -> Ratio {
    if num == 0 {
        return ZERO;
    }
    match Ratio::new(num, den as i128) {
        Ok(value) => value,
        Err(_) => unreachable!(),
    }
}

/// The least common denominator with a number more, where it and the number's parts are below 2^63.
#[inline]
fn common(den: u64, n: &Ratio) -> Option<u64> {
    if (n.num.unsigned_abs() | n.den) >= END as u128 {
        return None;
    }
    let own = n.den as u64;
    let rest = den % own;
    if rest == 0 {
        return Some(den);
    }
    let product = den as u128 * (own / gcd(rest, own)) as u128;
    if product < END as u128 { Some(product as u64) } else { None }
}

fn is_narrow_whole(n: &Ratio) -> bool {
    n.den == 1 && n.num.unsigned_abs() < END as u128
}

// Reading.
impl WholeBoard {
    fn has_bit(&self, i: usize, j: usize) -> bool {
        self.bits[i * self.words + j / 64] >> (j % 64) & 1 == 1
    }

    fn value(&self, i: usize, j: usize) -> Ratio {
        if self.dens[i] != 0 {
            fraction(self.cells[i * self.width + j] as i128, self.dens[i] as u128)
        } else if self.has_bit(i, j) {
            self.wides[i][j]
        } else {
            ZERO
        }
    }

    fn side(&self, i: usize) -> Ratio {
        if self.dens[i] != 0 { fraction(self.sides[i] as i128, self.dens[i] as u128) } else { self.wides[i][self.width] }
    }

    fn is_negative(&self, i: usize, j: usize) -> bool {
        if self.dens[i] != 0 { self.cells[i * self.width + j] < 0 } else { self.value(i, j).num < 0 }
    }

    /// Notes the rows that aren't 0 in column q.
    fn gather(&mut self, q: usize) {
        let mut found = 0;
        for i in 0..self.m {
            let n = self.cells[i * self.width + q];
            self.column[found] = (i as u32, n);
            found += usize::from(n != 0);
        }
        for &i in &self.wide_rows {
            if !self.value(i as usize, q).is_zero() {
                self.column[found] = (i, 0);
                found += 1;
            }
        }
        self.entries = found;
        self.gathered = q;
    }

    /// Reads the new row r off a narrow row, and takes the bits of zeros away.
    fn read_step(&mut self, r: usize, q: usize) -> NewRow {
        self.step_words.clear();
        let entry = self.cells[r * self.width + q];
        let sign = if entry < 0 { -1 } else { 1 };
        let mut greatest = 0;
        let mut found = 0;
        for w in 0..self.words {
            let mut rest = self.bits[r * self.words + w];
            if rest == 0 {
                continue;
            }
            let mut kept = 0;
            while rest != 0 {
                let bit = rest.trailing_zeros() as usize;
                rest &= rest - 1;
                let j = w * 64 + bit;
                let n = self.cells[r * self.width + j] * sign;
                self.step[found] = (j as u32, n);
                greatest |= n.unsigned_abs();
                found += usize::from(n != 0);
                kept |= u64::from(n != 0) << bit;
            }
            self.bits[r * self.words + w] = kept;
            if kept != 0 {
                self.step_words.push((w as u32, kept));
            }
        }
        self.steps = found;
        let side = self.sides[r] * sign;
        greatest |= side.unsigned_abs();
        // Lowest terms: what divides the entry and every numerator.
        let mut g = join(entry.unsigned_abs(), side);
        for (_, n) in &self.step[..found] {
            if g == 1 {
                break;
            }
            g = join(g, *n);
        }
        if g != 1 {
            for (_, n) in &mut self.step[..found] {
                *n /= g as i64;
            }
        }
        NewRow { p: entry.unsigned_abs() / g, greatest: greatest / g, side: side / g as i64 }
    }
}

// Changing narrow rows. None of it fails.
impl WholeBoard {
    fn spread_step(&mut self) {
        if !self.is_spread {
            self.is_spread = true;
            for &(j, n) in &self.step[..self.steps] {
                self.step_at[j as usize] = n;
            }
        }
    }

    fn put_step(&mut self, r: usize, new: NewRow) {
        for &(j, n) in &self.step[..self.steps] {
            self.cells[r * self.width + j as usize] = n;
        }
        self.sides[r] = new.side;
        self.dens[r] = new.p;
        self.bounds[r] = new.greatest;
        if self.is_spread {
            self.is_spread = false;
            for &(j, _) in &self.step[..self.steps] {
                self.step_at[j as usize] = 0;
            }
        }
    }

    /// Lowers the rows of `column`.
    fn lower_rows(&mut self, q: usize, new: NewRow) {
        let mut kept = 0;
        for k in 0..self.entries {
            let (i, by) = self.column[k];
            if let Some(by) = self.prepare(i as usize, by, new) {
                self.column[kept] = (i, by);
                kept += 1;
            }
        }
        let rows = &self.column[..kept];
        if new.side != 0 {
            for &(i, by) in rows {
                self.sides[i as usize] -= by * new.side;
            }
        }
        for &(i, _) in rows {
            let bits = &mut self.bits[i as usize * self.words..][..self.words];
            for &(w, word) in &self.step_words {
                bits[w as usize] |= word;
            }
            bits[q / 64] &= !(1 << (q % 64));
        }
        for &(i, by) in rows {
            let row = &mut self.cells[i as usize * self.width..][..self.width];
            for &(j, n) in &self.step[..self.steps] {
                row[j as usize] -= by * n;
            }
        }
    }

    fn lower_cost(&mut self, i: usize, q: usize, new: NewRow) {
        let base = i * self.width;
        let by = self.cells[base + q];
        if by == 0 {
            return;
        }
        let Some(by) = self.prepare(i, by, new) else { return };
        for &(w, word) in &self.step_words {
            self.bits[i * self.words + w as usize] |= word;
        }
        let row = &mut self.cells[base..][..self.width];
        for &(j, n) in &self.step[..self.steps] {
            row[j as usize] -= by * n;
        }
    }

    /// Brings row i, whose entry is `by`, over the denominator of the lowered row. Tells by what
    /// multiple of the step it is still to be lowered; None where that is done.
    #[inline]
    fn prepare(&mut self, i: usize, by: i64, new: NewRow) -> Option<i64> {
        if new.p == 1 {
            let bound = self.bounds[i].saturating_add(by.unsigned_abs().saturating_mul(new.greatest));
            if bound < END {
                self.bounds[i] = bound;
                return Some(by);
            }
            self.lower_long(i, by, 1, new);
            return None;
        }
        let g = join(new.p, by);
        let (by, p) = (by / g as i64, new.p / g);
        let bound = self.bounds[i].saturating_mul(p).saturating_add(by.unsigned_abs().saturating_mul(new.greatest));
        let den = self.dens[i].saturating_mul(p);
        if bound >= END || den >= END {
            self.lower_long(i, by, p, new);
            return None;
        }
        if p != 1 {
            let base = i * self.width;
            let cells = &mut self.cells;
            each(&self.bits, self.words, i, |j| cells[base + j] *= p as i64);
            self.sides[i] *= p as i64;
            self.dens[i] = den;
        }
        self.bounds[i] = bound;
        Some(by)
    }

    /// Lowers a narrow row whose numerators may pass 63 bits: divides them by what divides them and
    /// the old denominator. Where they still don't fit, the row becomes wide.
    #[cold]
    #[inline(never)]
    fn lower_long(&mut self, i: usize, by: i64, p: u64, new: NewRow) {
        self.spread_step();
        for &(w, word) in &self.step_words {
            self.bits[i * self.words + w as usize] |= word;
        }
        let (base, words) = (i * self.width, self.words);
        let (by, p) = (by as i128, p as i128);
        let den = self.dens[i] as u128 * p as u128;
        let side = if i < self.m { self.sides[i] as i128 * p - by * new.side as i128 } else { 0 };
        let (cells, bits, step_at, quotients) = (&mut self.cells, &self.bits, &self.step_at, &mut self.quotients);
        // A first guess by few numbers; where it divides another one not, the next guess is less.
        let mut g = join_long(self.dens[i], side);
        let mut looked = 0;
        all_of(bits, words, i, |j| {
            g = join_long(g, cells[base + j] as i128 * p - by * step_at[j] as i128);
            looked += 1;
            looked < 4 && g != 1
        });
        while den / (g as u128) < END as u128 {
            let divisor = Divisor::new(g);
            let mut bound = 0;
            let mut k = 0;
            let mut stopped = side;
            let mut is_done = divisor.quotient(side).is_some();
            is_done = is_done && all_of(bits, words, i, |j| {
                let n = cells[base + j] as i128 * p - by * step_at[j] as i128;
                let Some(quotient) = divisor.quotient(n) else {
                    stopped = n;
                    return false;
                };
                quotients[k] = quotient;
                bound |= quotient.unsigned_abs();
                k += 1;
                true
            });
            if is_done {
                let side = divisor.quotient(side).unwrap_or(0);
                let mut k = 0;
                each(bits, words, i, |j| {
                    cells[base + j] = quotients[k];
                    k += 1;
                });
                self.sides[i] = side;
                self.bounds[i] = bound | side.unsigned_abs();
                self.dens[i] = (den / g as u128) as u64;
                return;
            }
            let less = join_long(g, stopped);
            if less == g {
                break;
            }
            g = less;
        }
        let wide = room_for(&mut self.wides[i], self.width);
        each(bits, words, i, |j| {
            wide[j] = fraction(cells[base + j] as i128 * p - by * step_at[j] as i128, den);
            cells[base + j] = 0;
        });
        wide[self.width] = fraction(side, den);
        self.become_wide(i);
        self.come_back(i);
    }
}

fn room_for(wide: &mut Vec<Ratio>, width: usize) -> &mut Vec<Ratio> {
    wide.resize(width + 1, ZERO);
    wide
}

// Wide rows.
impl WholeBoard {
    fn become_wide(&mut self, i: usize) {
        self.dens[i] = 0;
        if i < self.m {
            self.wide_rows.push(i as u32);
        }
    }

    /// The fractions of a narrow row, as they are.
    fn widen(&mut self, i: usize) {
        let (base, den) = (i * self.width, self.dens[i] as u128);
        let wide = room_for(&mut self.wides[i], self.width);
        let cells = &mut self.cells;
        each(&self.bits, self.words, i, |j| {
            wide[j] = fraction(cells[base + j] as i128, den);
            cells[base + j] = 0;
        });
        wide[self.width] = fraction(self.sides[i] as i128, den);
        self.become_wide(i);
    }

    /// A wide row becomes narrow where its numerators over the least common denominator allow it.
    fn come_back(&mut self, i: usize) {
        let (base, words) = (i * self.width, self.words);
        let wide = &self.wides[i];
        let mut den = 1;
        let mut look = |n: &Ratio| common(den, n).is_some_and(|more| {
            den = more;
            true
        });
        if !look(&wide[self.width]) || !all_of(&self.bits, words, i, |j| look(&wide[j])) {
            return;
        }
        let over = |n: &Ratio| n.num * (den / n.den as u64) as i128;
        let mut bound = over(&wide[self.width]).unsigned_abs();
        each(&self.bits, words, i, |j| bound |= over(&wide[j]).unsigned_abs());
        if bound >= END as u128 {
            return;
        }
        let cells = &mut self.cells;
        each(&self.bits, words, i, |j| cells[base + j] = over(&wide[j]) as i64);
        self.sides[i] = over(&wide[self.width]) as i64;
        self.dens[i] = den;
        self.bounds[i] = bound as u64;
        self.wide_rows.retain(|k| *k as usize != i);
    }

    /// A pivot in which the new row, or a row that it lowers, is wide. What may not fit is worked out
    /// before anything changes.
    #[cold]
    #[inline(never)]
    fn pivot_wide(&mut self, in_first: bool, r: usize, q: usize) -> Option<()> {
        let is_step_wide = self.dens[r] == 0;
        let mut new = NewRow { p: 1, greatest: 0, side: 0 };
        let mut units: Vec<(u32, Ratio)> = Vec::new();
        let side_unit;
        if is_step_wide {
            let entry = self.wides[r][q];
            side_unit = self.wides[r][self.width].div(&entry).ok()?;
            units = self.read_wide_step(r, &entry)?;
        } else {
            new = self.read_step(r, q);
            units.extend(self.step[..self.steps].iter().map(|(j, n)| (*j, fraction(*n as i128, new.p as u128))));
            side_unit = fraction(new.side as i128, new.p as u128);
        }
        // The rows that are lowered as wide ones; those in `column` stay, which are narrow as the step is.
        let mut rows: Vec<u32> = Vec::new();
        let mut kept = 0;
        for k in 0..self.entries {
            let (i, by) = self.column[k];
            if is_step_wide || self.dens[i as usize] == 0 {
                rows.push(i);
            } else {
                self.column[kept] = (i, by);
                kept += 1;
            }
        }
        self.entries = kept;
        let costs = self.costs(in_first);
        rows.extend(costs.clone().filter(|&i| (is_step_wide || self.dens[i] == 0) && !self.value(i, q).is_zero()).map(|i| i as u32));
        let mut next: Vec<Ratio> = Vec::new();
        for &i in &rows {
            let i = i as usize;
            let by = self.value(i, q);
            for (j, unit) in &units {
                next.push(lowered(&self.value(i, *j as usize), &by, unit)?);
            }
            next.push(if i < self.m { lowered(&self.side(i), &by, &side_unit)? } else { ZERO });
        }
        // From here on nothing fails.
        let mut next = next.into_iter();
        for &i in &rows {
            let i = i as usize;
            if self.dens[i] != 0 {
                self.widen(i);
            }
            for &(w, word) in &self.step_words {
                self.bits[i * self.words + w as usize] |= word;
            }
            let wide = &mut self.wides[i];
            let places = units.iter().map(|u| u.0 as usize).chain([self.width]);
            for (j, value) in places.zip(&mut next) {
                wide[j] = value;
            }
        }
        if is_step_wide {
            for (j, unit) in units {
                self.wides[r][j as usize] = unit;
            }
            self.wides[r][self.width] = side_unit;
            self.come_back(r);
        } else {
            self.lower_rows(q, new);
            for i in costs {
                if self.dens[i] != 0 {
                    self.lower_cost(i, q, new);
                }
            }
            self.put_step(r, new);
        }
        for i in rows {
            self.come_back(i as usize);
        }
        Some(())
    }

    fn read_wide_step(&mut self, r: usize, entry: &Ratio) -> Option<Vec<(u32, Ratio)>> {
        let mut units = Vec::new();
        self.step_words.clear();
        for w in 0..self.words {
            let mut rest = self.bits[r * self.words + w];
            let mut kept = rest;
            while rest != 0 {
                let bit = rest.trailing_zeros();
                rest &= rest - 1;
                let j = w * 64 + bit as usize;
                let n = self.wides[r][j];
                if n.is_zero() {
                    kept &= !(1 << bit);
                } else {
                    units.push((j as u32, n.div(entry).ok()?));
                }
            }
            self.bits[r * self.words + w] = kept;
            if kept != 0 {
                self.step_words.push((w as u32, kept));
            }
        }
        Some(units)
    }
}

fn lowered(number: &Ratio, by: &Ratio, unit: &Ratio) -> Option<Ratio> {
    if unit.is_zero() {
        return Some(*number);
    }
    let multiple = by.mul(unit).ok()?;
    if number.is_zero() { Some(multiple.neg()) } else { number.sub(&multiple).ok() }
}

// The prices.
impl WholeBoard {
    /// The cost rows in use.
    fn costs(&self, in_first: bool) -> std::ops::Range<usize> {
        if in_first { self.m..self.m + 2 } else { self.m..self.m + 1 }
    }

    /// Only columns of the new row have other prices than before.
    fn note_low(&mut self, i: usize) {
        let low = self.low[i - self.m];
        for &(w, word) in &self.step_words {
            let mut rest = word;
            while rest != 0 {
                let j = w as usize * 64 + rest.trailing_zeros() as usize;
                rest &= rest - 1;
                if j >= low {
                    return;
                }
                if self.is_negative(i, j) {
                    self.low[i - self.m] = j;
                    return;
                }
            }
        }
    }
}

// The start.
impl WholeBoard {
    /// The entries aren't 0, and each is beside its column.
    fn start_row(&mut self, i: usize, entries: impl Iterator<Item = (usize, Ratio)> + Clone, side: &Ratio) {
        let (base, own) = (i * self.width, self.c + i);
        let mut den = common(1, side);
        let mut is_whole = is_narrow_whole(side);
        let mut bound = 1 | side.num.unsigned_abs();
        let bits = &mut self.bits[i * self.words..][..self.words];
        for (j, entry) in entries.clone() {
            bits[j / 64] |= 1 << (j % 64);
            is_whole &= is_narrow_whole(&entry);
            bound |= entry.num.unsigned_abs();
            den = den.and_then(|den| common(den, &entry));
            self.cells[base + j] = entry.num as i64;
        }
        let has_own = i < self.m;
        if has_own {
            bits[own / 64] |= 1 << (own % 64);
        }
        if is_whole {
            if has_own {
                self.cells[base + own] = 1;
            }
            self.sides[i] = side.num as i64;
            self.bounds[i] = bound as u64;
            return;
        }
        let wide = room_for(&mut self.wides[i], self.width);
        for (j, entry) in entries {
            wide[j] = entry;
            self.cells[base + j] = 0;
        }
        if has_own {
            wide[own] = ONE;
        }
        wide[self.width] = *side;
        self.become_wide(i);
        if den.is_some() {
            self.come_back(i);
        }
    }
}

/// The numbers that aren't 0, each beside its column.
fn present(numbers: &[Ratio]) -> impl Iterator<Item = (usize, Ratio)> + Clone + '_ {
    numbers.iter().copied().enumerate().filter(|(_, number)| !number.is_zero())
}

impl Tableau for WholeBoard {
    fn start(form: &Form) -> Option<Self> {
        let (m, c) = (form.m, form.c);
        let width = c + m;
        let words = width.div_ceil(64);
        let mut board = WholeBoard {
            m,
            c,
            width,
            cells: vec![0; (m + 2) * width],
            sides: vec![0; m + 2],
            dens: vec![1; m + 2],
            bounds: vec![0; m + 2],
            wides: vec![Vec::new(); m + 2],
            wide_rows: Vec::new(),
            bits: vec![0; (m + 2) * words],
            words,
            low: [0; 2],
            // A chunk of the column may be noted past its end.
            column: vec![(0, 0); m + 8],
            entries: 0,
            gathered: usize::MAX,
            step: vec![(0, 0); width + 1],
            steps: 0,
            step_words: Vec::with_capacity(words),
            step_at: vec![0; width],
            is_spread: false,
            quotients: vec![0; width],
            basis: (c..c + m).collect(),
        };
        let mut sums = vec![ZERO; c];
        for (i, entries) in form.rows().enumerate() {
            board.start_row(i, entries.clone(), &form.right[i]);
            for (j, entry) in entries {
                sums[j] = sums[j].add(&entry).ok()?;
            }
        }
        for sum in &mut sums {
            *sum = sum.neg();
        }
        board.start_row(m, present(&form.costs), &ZERO);
        board.start_row(m + 1, present(&sums), &ZERO);
        Some(board)
    }

    fn entering(&mut self, in_first: bool) -> Option<usize> {
        let k = usize::from(in_first);
        let (i, low) = (self.m + k, self.low[k]);
        let found = if self.dens[i] != 0 {
            let base = i * self.width;
            self.cells[base + low..base + self.c].iter().position(|n| *n < 0).map(|j| low + j)
        } else {
            (low..self.c).find(|&j| self.is_negative(i, j))
        };
        self.low[k] = found.unwrap_or(self.c);
        found
    }

    fn leaving(&mut self, q: usize) -> Option<usize> {
        self.gather(q);
        let column = &self.column[..self.entries];
        let mut best: Option<usize> = None;
        if self.wide_rows.is_empty() {
            // The right side and the entry of a row have their denominator in common.
            let (mut least, mut over) = (0i64, 1i64);
            for &(i, by) in column {
                if by <= 0 {
                    continue;
                }
                let side = self.sides[i as usize];
                let before = best.is_none_or(|k| match (side as i128 * over as i128).cmp(&(least as i128 * by as i128)) {
                    Ordering::Less => true,
                    Ordering::Equal => self.basis[i as usize] < self.basis[k],
                    Ordering::Greater => false,
                });
                if before {
                    best = Some(i as usize);
                    (least, over) = (side, by);
                }
            }
            return best;
        }
        let whole = |n: i64| Ratio { num: n as i128, den: 1 };
        let mut least = (ZERO, ONE);
        for &(i, by) in column {
            let i = i as usize;
            let parts = if self.dens[i] != 0 { (whole(self.sides[i]), whole(by)) } else { (self.side(i), self.value(i, q)) };
            let before = |k: usize| cmp_quotients(&parts.0, &parts.1, &least.0, &least.1).then(self.basis[i].cmp(&self.basis[k])).is_lt();
            if parts.1.num > 0 && best.is_none_or(before) {
                best = Some(i);
                least = parts;
            }
        }
        best
    }

    fn swept_column(&self, r: usize) -> Option<usize> {
        let mut found = None;
        all_of(&self.bits, self.words, r, |j| {
            if j < self.c && !self.value(r, j).is_zero() {
                found = Some(j);
            }
            j < self.c && found.is_none()
        });
        found
    }

    fn pivot(&mut self, in_first: bool, r: usize, q: usize) -> Option<()> {
        if self.gathered != q {
            self.gather(q);
        }
        self.gathered = usize::MAX;
        // The other rows of the column.
        if let Some(place) = self.column[..self.entries].iter().position(|e| e.0 as usize == r) {
            self.entries -= 1;
            self.column.swap(place, self.entries);
        }
        let is_wide = self.dens[r] == 0
            || self.costs(in_first).any(|i| self.dens[i] == 0)
            || (!self.wide_rows.is_empty() && self.column[..self.entries].iter().any(|e| e.1 == 0));
        if is_wide {
            self.pivot_wide(in_first, r, q)?;
        } else {
            let new = self.read_step(r, q);
            self.lower_rows(q, new);
            for i in self.costs(in_first) {
                self.lower_cost(i, q, new);
            }
            self.put_step(r, new);
        }
        for i in self.costs(in_first) {
            self.note_low(i);
        }
        self.basis[r] = q;
        Some(())
    }

    fn entry(&self, r: usize, q: usize) -> Ratio {
        self.value(r, q)
    }

    fn right(&self, r: usize) -> Ratio {
        self.side(r)
    }

    fn price(&self, in_first: bool, q: usize) -> Ratio {
        self.value(self.m + usize::from(in_first), q)
    }

    fn basis(&self) -> &[usize] {
        &self.basis
    }
}
