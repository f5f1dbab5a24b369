//! The sparse board: a row is its columns in rising order with their numbers, and is merged into a
//! spare row when it is lowered, without a way back. A row isn't looked at for a column in which it
//! has had no number.
use crate::fraction::{ONE, Ratio, ZERO};
use crate::{Form, Tableau};

#[derive(Default)]
struct Row {
    columns: Vec<u32>,
    values: Vec<Ratio>,
}

impl Row {
    fn number(&self, column: u32) -> Ratio {
        self.columns.binary_search(&column).map_or(ZERO, |place| self.values[place])
    }

    fn push(&mut self, column: u32, value: Ratio) {
        self.columns.push(column);
        self.values.push(value);
    }

    fn push_any(&mut self, column: u32, value: Ratio) {
        if !value.is_zero() {
            self.push(column, value);
        }
    }
}

pub struct SparseBoard {
    m: usize,
    c: usize,
    rows: Vec<Row>,
    first: Row,
    second: Row,
    spare: Row,
    marks: Vec<bool>,
    basis: Vec<usize>,
}

impl Tableau for SparseBoard {
    fn start(form: &Form) -> Option<SparseBoard> {
        let (m, c) = (form.m, form.c);
        let mut sums = vec![ZERO; c];
        let mut rows = Vec::with_capacity(m);
        let mut marks = vec![false; (c + m + 1) * m];
        for (i, entries) in form.rows().enumerate() {
            let mut row = Row::default();
            for (j, entry) in entries {
                row.push(j as u32, entry);
                sums[j] = sums[j].add(&entry).ok()?;
            }
            row.push((c + i) as u32, ONE);
            row.push_any((c + m) as u32, form.right[i]);
            for &column in &row.columns {
                marks[column as usize * m + i] = true;
            }
            rows.push(row);
        }
        let (mut first, mut second) = (Row::default(), Row::default());
        for (j, (sum, cost)) in sums.iter().zip(&form.costs).enumerate() {
            first.push_any(j as u32, sum.neg());
            second.push_any(j as u32, *cost);
        }
        Some(SparseBoard {
            m,
            c,
            rows,
            first,
            second,
            spare: Row::default(),
            marks,
            basis: (c..c + m).collect(),
        })
    }

    fn pivot(&mut self, in_first: bool, r: usize, q: usize) -> Option<()> {
        let (column, m) = (q as u32, self.m);
        let mut step = std::mem::take(&mut self.rows[r]);
        let entry = step.number(column);
        for number in &mut step.values {
            *number = number.div(&entry).ok()?;
        }
        for i in 0..m {
            if i != r && self.marks[q * m + i] {
                lower(&mut self.rows[i], column, &step.columns, &step.values, &mut self.spare)?;
            }
        }
        let from = self.marks[q * m..][..m].to_vec();
        for &column in &step.columns {
            for (mark, is_marked) in self.marks[column as usize * m..].iter_mut().zip(&from) {
                *mark |= is_marked;
            }
        }
        let inner = step.columns.partition_point(|&j| (j as usize) < self.c + m);
        let (columns, units) = (&step.columns[..inner], &step.values[..inner]);
        if in_first {
            lower(&mut self.first, column, columns, units, &mut self.spare)?;
        }
        lower(&mut self.second, column, columns, units, &mut self.spare)?;
        self.rows[r] = step;
        self.basis[r] = q;
        Some(())
    }

    fn entry(&self, r: usize, q: usize) -> Ratio {
        if self.marks[q * self.m + r] { self.rows[r].number(q as u32) } else { ZERO }
    }

    fn right(&self, r: usize) -> Ratio {
        self.rows[r].number((self.c + self.m) as u32)
    }

    fn price(&self, in_first: bool, q: usize) -> Ratio {
        if in_first { self.first.number(q as u32) } else { self.second.number(q as u32) }
    }

    fn entering(&mut self, in_first: bool) -> Option<usize> {
        let row = if in_first { &self.first } else { &self.second };
        let real = row.columns.iter().map(|&j| j as usize).take_while(|&j| j < self.c);
        real.zip(&row.values).find(|(_, price)| price.num < 0).map(|(j, _)| j)
    }

    fn swept_column(&self, r: usize) -> Option<usize> {
        self.rows[r].columns.first().map(|&j| j as usize).filter(|&j| j < self.c)
    }

    fn basis(&self) -> &[usize] {
        &self.basis
    }
}

fn lower(row: &mut Row, q: u32, columns: &[u32], units: &[Ratio], spare: &mut Row) -> Option<()> {
    let by = row.number(q);
    if by.is_zero() {
        return Some(());
    }
    spare.columns.clear();
    spare.values.clear();
    let mut i = 0;
    for (&column, unit) in columns.iter().zip(units) {
        while i < row.columns.len() && row.columns[i] < column {
            spare.push(row.columns[i], row.values[i]);
            i += 1;
        }
        let mut number = ZERO;
        if i < row.columns.len() && row.columns[i] == column {
            number = row.values[i];
            i += 1;
        }
        spare.push_any(column, number.sub(&by.mul(unit).ok()?).ok()?);
    }
    spare.columns.extend_from_slice(&row.columns[i..]);
    spare.values.extend_from_slice(&row.values[i..]);
    std::mem::swap(row, spare);
    Some(())
}
