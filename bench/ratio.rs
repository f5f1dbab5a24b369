//! The same benchmark as `ratio_bench`, written plainly in Rust.
#[allow(dead_code)]
#[path = "fraction.rs"]
mod fraction;

use fraction::{Fault, Ratio};
use std::cmp::Ordering;

#[derive(Clone, Copy)]
enum Operation {
    Add,
    Multiply,
    Compare,
}

struct Draw {
    state: u64,
}

impl Draw {
    fn next(&mut self) -> u64 {
        self.state = self.state.wrapping_mul(6364136223846793005).wrapping_add(1442695040888963407);
        self.state
    }

    /// How many bits the next part has at most.
    fn bits(&mut self, size: &str) -> u32 {
        match size {
            "whole" | "small" => 7,
            "medium" => 31,
            "limit" => 62,
            "wide" => 126,
            _ => ((self.next() >> 57) % 127) as u32,
        }
    }

    fn operand(&mut self, size: &str) -> Result<Ratio, Fault> {
        let bits = self.bits(size);
        let num = self.part(bits);
        let num = if self.next() >= 1 << 63 { -num } else { num };
        let bits = self.bits(size);
        let den = if size == "whole" { 1 } else { self.part(bits) + 1 };
        Ratio::new(num, den)
    }

    /// A number of so many bits: the highest of two draws, which are the best of such a congruence.
    fn part(&mut self, bits: u32) -> i128 {
        let (high, low) = (self.next() >> 1, self.next() >> 1);
        let wide = ((high as u128) << 63) + low as u128;
        (wide >> (126 - bits)) as i128
    }
}

fn operands(size: &str) -> Vec<Ratio> {
    let mut draw = Draw { state: 1 };
    (0..1024).filter_map(|_| draw.operand(size).ok()).collect()
}

fn mixed(sum: u64, word: u64) -> u64 {
    sum.wrapping_mul(31).wrapping_add(word)
}

/// Every part of the answer, or which refusal it is.
fn digest(answer: Result<Ratio, Fault>) -> u64 {
    match answer {
        Ok(value) => {
            let num = mixed(value.num as u64, (value.num >> 64) as u64);
            mixed(mixed(num, value.den as u64), (value.den >> 64) as u64)
        }
        Err(Fault::Overflow) => 1,
        Err(Fault::ZeroDenominator) => 2,
    }
}

/// 2, 0 or 1, without a branch.
fn order(answer: Ordering) -> u64 {
    u64::from(answer.is_lt()) * 2 + u64::from(answer.is_gt())
}

fn comparison(size: &str, seed: u64, count: u32) -> u64 {
    let mut draw = Draw { state: seed };
    let mut left = Ratio { num: 0, den: 1 };
    let mut sum = 0u64;
    for _ in 0..count {
        if let Ok(right) = draw.operand(size) {
            for answer in [
                digest(left.add(&right)),
                digest(left.sub(&right)),
                digest(left.mul(&right)),
                digest(left.div(&right)),
                order(left.cmp(&right)),
            ] {
                sum = mixed(sum, answer);
            }
            left = right;
        }
    }
    sum
}

fn checksum(operation: Operation, operands: &[Ratio], rounds: u32) -> u64 {
    let mut sum = 0u64;
    for _ in 0..rounds {
        for i in 1..operands.len() {
            let (left, right) = (&operands[i - 1], &operands[i]);
            let answer = match operation {
                Operation::Add => digest(left.add(right)),
                Operation::Multiply => digest(left.mul(right)),
                Operation::Compare => order(left.cmp(right)),
            };
            sum = mixed(sum, answer);
        }
    }
    sum
}

fn main() {
    let words: Vec<String> = std::env::args().collect();
    let number = words[3].parse().unwrap();
    let operation = match words[1].as_str() {
        "add" => Operation::Add,
        "mul" => Operation::Multiply,
        "cmp" => Operation::Compare,
        _ => {
            let count = words[4].parse().unwrap();
            println!("{}", comparison(&words[2], number, count));
            return;
        }
    };
    println!("{}", checksum(operation, &operands(&words[2]), number as u32));
}
