//! The generator's two columns and the bare loop over them in plain Rust: `generator ROWS` prints what the proved program's `gen ROWS` prints.

/// A column of numbers, and which of its rows aren't null.
struct Column {
    values: Vec<i64>,
    valid: Vec<bool>,
}

fn left(rows: i64) -> Column {
    let is_null = |i: i64| i % 5 == 3;
    Column {
        values: (0..rows).map(|i| if is_null(i) { i64::MAX } else { 37 * i % 1000 }).collect(),
        valid: (0..rows).map(|i| !is_null(i)).collect(),
    }
}

fn right(rows: i64) -> Column {
    let is_null = |i: i64| i % 7 == 2;
    Column {
        values: (0..rows).map(|i| if is_null(i) { 1 } else { i % 97 }).collect(),
        valid: (0..rows).map(|i| !is_null(i)).collect(),
    }
}

/// The sums modulo 2^64, and the rows at which both columns have a number. None where such a row's sum is no `i64`.
fn checked_sums(left: &Column, right: &Column) -> Option<Column> {
    let rows = left.values.len();
    let mut failed = false;
    let mut values = Vec::with_capacity(rows);
    let mut valid = Vec::with_capacity(rows);
    for i in 0..rows {
        let is_valid = left.valid[i] & right.valid[i];
        let (sum, overflows) = left.values[i].overflowing_add(right.values[i]);
        failed |= overflows & is_valid;
        values.push(sum);
        valid.push(is_valid);
    }
    (!failed).then_some(Column { values, valid })
}

fn main() {
    let rows: i64 = std::env::args().nth(1).and_then(|word| word.parse().ok()).expect("a number of rows");
    let sums = checked_sums(&left(rows), &right(rows)).expect("sums that are i64");
    let marked = || sums.values.iter().zip(&sums.valid).filter(|(_, valid)| **valid);
    let total: i64 = marked().map(|(sum, _)| *sum).sum();
    println!("rows {rows}\nnulls {}\nsum {total}", sums.values.len() - marked().count());
}
