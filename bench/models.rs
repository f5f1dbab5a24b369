//! The sparse forms of `simplex_bench`.
use crate::fraction::{Ratio, ZERO};
use crate::{Draw, Form, whole};

/// The form of a kind with so many rows and columns.
pub fn model(kind: &str, m: usize, c: usize) -> Option<Form> {
    let mut form = Form { m, c, terms: Vec::new(), right: vec![ZERO; m], costs: vec![ZERO; c] };
    let mut draw = Draw { state: 1 };
    match kind {
        "chain" => chain(&mut form, &mut draw),
        "transport" => transport(&mut form, &mut draw),
        "blend" => blend(&mut form, &mut draw),
        _ => return None,
    }
    // A transport puts them column by column. A place that was put twice has its first entry.
    form.terms.sort_by_key(|term| term.0);
    form.terms.dedup_by_key(|term| term.0);
    Some(form)
}

impl Form {
    fn put(&mut self, row: usize, column: usize, entry: i64) {
        self.terms.push((row * self.c + column, whole(entry)));
    }

    fn add_side(&mut self, row: usize, side: u64) {
        let sum = self.right[row].num + i128::from(side);
        self.right[row] = Ratio { num: sum, den: 1 };
    }
}

fn chain(form: &mut Form, draw: &mut Draw) {
    let balances = form.c - form.m;
    for row in 0..balances {
        let (made, kept) = (2 * row, 2 * row + 1);
        form.put(row, made, 1);
        form.put(row, kept, -1);
        if row % 10 != 0 {
            form.put(row, kept - 2, 1);
        }
        form.add_side(row, draw.below(90) + 10);
        form.costs[made] = whole(draw.below(50) as i64 + 1);
        form.costs[kept] = whole(draw.below(5) as i64 + 1);
    }
    for k in 0..form.m - balances {
        form.put(balances + k, if k < balances { 2 * k } else { 2 * (k - balances) + 1 }, 1);
        form.put(balances + k, 2 * balances + k, 1);
        form.add_side(balances + k, draw.below(100) + 100);
    }
}

fn transport(form: &mut Form, draw: &mut Draw) {
    let half = form.m / 2;
    let end = |arc: usize, draw: &mut Draw| if arc < half { arc } else { draw.below(half as u64) as usize };
    for arc in 0..form.c {
        let from = end(arc, draw);
        let to = half + end(arc, draw);
        form.put(from, arc, 1);
        form.put(to, arc, 1);
        let flow = draw.below(20);
        form.add_side(from, flow);
        form.add_side(to, flow);
        form.costs[arc] = whole(draw.below(99) as i64 + 1);
    }
}

fn blend(form: &mut Form, draw: &mut Draw) {
    let bought = form.c - form.m - 1;
    form.costs[0] = whole(1000);
    for k in 0..form.m {
        form.put(k, 0, 1);
        if k < bought {
            let (alone, over) = (1 + 2 * k, 2 + 2 * k);
            form.put(k, alone, 1);
            form.put(k, over, -1);
            form.costs[alone] = whole(draw.below(50) as i64 + 1);
            form.costs[over] = whole(draw.below(3) as i64);
            form.add_side(k, draw.below(5000) + 1000);
        } else {
            form.put(k, 1 + bought + k, -1);
            form.add_side(k, draw.below(1000));
        }
    }
}
