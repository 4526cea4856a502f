//! Times the proved calls of functions whose failures are evidence beside loops in plain Rust.
use crate::{least_of_rounds, report};
use std::hint::black_box;

unsafe extern "C" {
    fn rowbench_execute_checked(rows: usize, rounds: usize, shape: u8) -> i64;
    fn rowbench_execute_truncate(rows: usize, rounds: usize) -> i64;
}

fn proved(rows: usize, rounds: usize, shape: u8) -> i64 {
    // SAFETY: the function asks nothing of its numbers.
    unsafe { rowbench_execute_checked(rows, rounds, shape) }
}

/// The sums in a new list, and whether some sum is no `i64`.
#[inline(never)]
fn plain_sums(xs: &[i64], ys: &[i64]) -> (Vec<i64>, bool) {
    let mut failed = false;
    let sums = xs
        .iter()
        .zip(ys)
        .map(|(x, y)| {
            let (sum, overflows) = x.overflowing_add(*y);
            failed |= overflows;
            sum
        })
        .collect();
    (sums, failed)
}

/// The products with a number that stands in a register in a new list, and whether some product is no `i64`.
#[inline(never)]
fn plain_products(xs: &[i64], power: i64) -> (Vec<i64>, bool) {
    let mut failed = false;
    let products = xs
        .iter()
        .map(|x| {
            let (product, overflows) = x.overflowing_mul(power);
            failed |= overflows;
            product
        })
        .collect();
    (products, failed)
}

/// The total over the rounds of the number in the row of that round, among answers that are made anew in each round.
fn total<F: Fn() -> (Vec<i64>, bool)>(rows: usize, rounds: usize, is_valid: fn(usize) -> bool, work: F) -> i64 {
    let mut total = 0i64;
    for round in 0..rounds {
        let answer = work();
        let (values, failed) = black_box(&answer);
        if *failed {
            return 0;
        }
        if round < rows && is_valid(round) {
            total = total.wrapping_add(values[round]);
        }
    }
    total
}

fn plain_checked(rows: usize, rounds: usize, is_valid: fn(usize) -> bool) -> i64 {
    let xs: Vec<i64> = (0..rows as i64).collect();
    let ys = xs.clone();
    total(rows, rounds, is_valid, || plain_sums(black_box(&xs), black_box(&ys)))
}

fn plain_rescaled(rows: usize, rounds: usize) -> i64 {
    let xs: Vec<i64> = (0..rows as i64).collect();
    total(rows, rounds, |_| true, || plain_products(black_box(&xs), black_box(1000)))
}

/// The numbers down to the last multiple of the ticks in a new list, and whether some multiple is no `i64`.
#[inline(never)]
fn plain_steps(xs: &[i64], ticks: i64) -> (Vec<i64>, bool) {
    let mut failed = false;
    let steps = xs
        .iter()
        .map(|x| {
            let (step, overflows) = x.overflowing_sub(x.rem_euclid(ticks));
            failed |= overflows;
            step
        })
        .collect();
    (steps, failed)
}

fn plain_truncated(rows: usize, rounds: usize) -> i64 {
    let xs: Vec<i64> = (0..rows as i64).collect();
    total(rows, rounds, |_| true, || plain_steps(black_box(&xs), black_box(60)))
}

/// Timestamps in seconds that are truncated to minutes.
fn truncated(rows: usize, rounds: usize) {
    // SAFETY: the function asks nothing of its numbers.
    let proved = |rounds| unsafe { rowbench_execute_truncate(rows, rounds) };
    assert_eq!(proved(100.min(rows)), plain_truncated(rows, 100.min(rows)));
    let times = least_of_rounds(
        rows,
        rounds,
        |rounds| _ = black_box(proved(rounds)),
        |rounds| _ = black_box(plain_truncated(rows, rounds)),
    );
    report("truncate to 60 ticks", rows, times);
}

fn against_plain<R: Fn(usize) -> i64>(name: &str, rows: usize, rounds: usize, shape: u8, plain: R) {
    assert_eq!(proved(rows, 16, shape), plain(16));
    let times = least_of_rounds(
        rows,
        rounds,
        |rounds| _ = black_box(proved(rows, rounds, shape)),
        |rounds| _ = black_box(plain(rounds)),
    );
    report(name, rows, times);
}

/// A batch whose nulls hide failures beside the same nulls over small numbers, both through the proved call.
fn retried(rows: usize, rounds: usize) {
    assert_eq!(proved(rows, 16, 2), proved(rows, 16, 1));
    let times = least_of_rounds(
        rows,
        rounds,
        |rounds| _ = black_box(proved(rows, rounds, 2)),
        |rounds| _ = black_box(proved(rows, rounds, 1)),
    );
    report("checked_add, failing nulls", rows, times);
}

pub fn calls(rows: usize, rounds: usize) {
    let tenths = |row: usize| row % 10 != 3;
    against_plain("checked_add", rows, rounds, 0, |rounds| plain_checked(rows, rounds, |_| true));
    against_plain("checked_add, nulls in one", rows, rounds, 1, |rounds| plain_checked(rows, rounds, tenths));
    against_plain("rescale, a constant scale", rows, rounds, 3, |rounds| plain_rescaled(rows, rounds));
    truncated(rows, rounds);
    retried(rows, rounds);
}
