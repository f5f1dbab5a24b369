//! The dense board: each row is kept whole, beside room for the numbers of it that a pivot changes.
//! They are worked out there and then put in place, as the proved program does it: so a pivot that
//! doesn't fit leaves the board as it was.
use crate::fraction::{ONE, Ratio, ZERO};
use crate::{Form, Tableau};

struct Row {
    now: Vec<Ratio>,
    next: Vec<Ratio>,
}

impl Row {
    fn new(now: Vec<Ratio>) -> Row {
        Row { next: vec![ZERO; now.len()], now }
    }

    fn prepare(&mut self, q: usize, step: &[Ratio], places: &[usize]) -> Option<()> {
        let by = self.now[q];
        if by.is_zero() {
            return Some(());
        }
        // The cost rows have no right side.
        for &j in places.iter().take_while(|&&j| j < self.now.len()) {
            self.next[j] = self.now[j].sub(&by.mul(&step[j]).ok()?).ok()?;
        }
        Some(())
    }

    fn settle(&mut self, q: usize, places: &[usize]) {
        if self.now[q].is_zero() {
            return;
        }
        let length = self.now.len();
        for &j in places.iter().take_while(|&&j| j < length) {
            self.now[j] = self.next[j];
        }
    }
}

pub struct DenseBoard {
    m: usize,
    c: usize,
    rows: Vec<Row>,
    first: Row,
    second: Row,
    step: Vec<Ratio>,
    places: Vec<usize>,
    basis: Vec<usize>,
}

impl DenseBoard {
    fn prepare(&mut self, in_first: bool, r: usize, q: usize) -> Option<()> {
        let entry = self.rows[r].now[q];
        self.places.clear();
        for (j, (number, unit)) in self.rows[r].now.iter().zip(&mut self.step).enumerate() {
            if number.is_zero() {
                *unit = ZERO;
            } else {
                *unit = number.div(&entry).ok()?;
                self.places.push(j);
            }
        }
        for (i, row) in self.rows.iter_mut().enumerate() {
            if i != r {
                row.prepare(q, &self.step, &self.places)?;
            }
        }
        if in_first {
            self.first.prepare(q, &self.step, &self.places)?;
        }
        self.second.prepare(q, &self.step, &self.places)
    }
}

impl Tableau for DenseBoard {
    fn start(form: &Form) -> Option<DenseBoard> {
        let (m, c) = (form.m, form.c);
        let mut rows = Vec::with_capacity(m);
        let mut first = vec![ZERO; c + m];
        for (i, entries) in form.rows().enumerate() {
            let mut row = vec![ZERO; c + m + 1];
            for (j, entry) in entries {
                row[j] = entry;
                first[j] = first[j].add(&entry).ok()?;
            }
            row[c + i] = ONE;
            row[c + m] = form.right[i];
            rows.push(Row::new(row));
        }
        for price in &mut first[..c] {
            *price = price.neg();
        }
        let mut second = vec![ZERO; c + m];
        second[..c].copy_from_slice(&form.costs);
        Some(DenseBoard {
            m,
            c,
            rows,
            first: Row::new(first),
            second: Row::new(second),
            step: vec![ZERO; c + m + 1],
            places: Vec::with_capacity(c + m + 1),
            basis: (c..c + m).collect(),
        })
    }

    fn pivot(&mut self, in_first: bool, r: usize, q: usize) -> Option<()> {
        self.prepare(in_first, r, q)?;
        for (i, row) in self.rows.iter_mut().enumerate() {
            if i != r {
                row.settle(q, &self.places);
            }
        }
        if in_first {
            self.first.settle(q, &self.places);
        }
        self.second.settle(q, &self.places);
        std::mem::swap(&mut self.rows[r].now, &mut self.step);
        self.basis[r] = q;
        Some(())
    }

    fn entry(&self, r: usize, q: usize) -> Ratio {
        self.rows[r].now[q]
    }

    fn right(&self, r: usize) -> Ratio {
        self.rows[r].now[self.c + self.m]
    }

    fn price(&self, in_first: bool, q: usize) -> Ratio {
        if in_first { self.first.now[q] } else { self.second.now[q] }
    }

    fn entering(&mut self, in_first: bool) -> Option<usize> {
        let prices = if in_first { &self.first.now } else { &self.second.now };
        (0..self.c).find(|&j| prices[j].num < 0)
    }

    fn swept_column(&self, r: usize) -> Option<usize> {
        (0..self.c).find(|&j| !self.rows[r].now[j].is_zero())
    }

    fn basis(&self) -> &[usize] {
        &self.basis
    }
}
