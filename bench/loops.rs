//! Times the proved loops of `crates/rowbench` beside the same loops in plain Rust, in one run, and prints their ratios.
//! `bench/loops.sh` builds and runs it.
mod checked;

use std::borrow::Cow;
use std::hint::black_box;
use std::time::Instant;

unsafe extern "C" {
    fn rowbench_map_into(
        xs: *const i64, xs_len: usize, ys: *const i64, ys_len: usize, out: *mut i64, out_len: usize,
    );
    fn rowbench_and(rows: usize, rounds: usize) -> usize;
    fn rowbench_map_rows(rows: usize, rounds: usize, constant: bool) -> i64;
    fn rowbench_execute_rows(rows: usize, rounds: usize, shape: u8) -> i64;
}

fn proved_map_into(xs: &[i64], ys: &[i64], out: &mut [i64]) {
    assert!(xs.len() == ys.len() && out.len() == xs.len());
    // SAFETY: the three slices have one length, as the function asks.
    unsafe {
        rowbench_map_into(xs.as_ptr(), xs.len(), ys.as_ptr(), ys.len(), out.as_mut_ptr(), out.len())
    }
}

#[inline(never)]
fn plain_map_into(xs: &[i64], ys: &[i64], out: &mut [i64]) {
    assert!(xs.len() == ys.len() && out.len() == xs.len());
    for i in 0..out.len() {
        out[i] = xs[i].wrapping_add(ys[i]);
    }
}

/// The conjunctions of two lists of truth values, each in a list of its own.
#[inline(never)]
fn plain_and(rows: usize, rounds: usize) -> usize {
    let thirds: Vec<bool> = (0..rows).map(|i| i % 3 == 0).collect();
    let evens: Vec<bool> = (0..rows).map(|i| i % 2 == 0).collect();
    let mut count = 0;
    for round in 0..rounds {
        let joined: Vec<bool> =
            black_box(&thirds).iter().zip(black_box(&evens)).map(|(x, y)| x & y).collect();
        if rows > 0 && black_box(&joined)[round % rows] {
            count += 1;
        }
    }
    count
}

/// The sums of a column and a constant, which stands in a register.
#[inline(never)]
fn plain_map_constant(xs: &[i64], constant: i64, out: &mut [i64]) {
    for i in 0..out.len().min(xs.len()) {
        out[i] = xs[i].wrapping_add(constant);
    }
}

/// The last sum of the rising numbers and another column of them or a constant, which are added anew into the same places
/// in each round.
#[inline(never)]
fn plain_map_rows(rows: usize, rounds: usize, constant: bool) -> i64 {
    let first: Vec<i64> = (0..rows as i64).collect();
    let second = if constant { Vec::new() } else { first.clone() };
    // A list of zeros is memory that isn't touched before the first round.
    let mut places = vec![1; rows];
    for _ in 0..rounds {
        if constant {
            plain_map_constant(black_box(&first), black_box(9), black_box(&mut places));
        } else {
            plain_map_into(black_box(&first), black_box(&second), black_box(&mut places));
        }
    }
    places.last().copied().unwrap_or(0)
}

/// Two columns of numbers, of which the first or both are null at every tenth row.
struct Batch {
    first: Vec<i64>,
    first_valid: Vec<bool>,
    second: Vec<i64>,
    second_valid: Option<Vec<bool>>,
}

impl Batch {
    fn new(rows: usize, both: bool) -> Batch {
        let tenths = |first: usize| (0..rows).map(|i| i % 10 != first).collect();
        Batch {
            first: (0..rows as i64).collect(),
            first_valid: tenths(3),
            second: (0..rows as i64).collect(),
            second_valid: both.then(|| tenths(7)),
        }
    }
}

/// The sums in a new list, and where both columns hold nulls the joined marks of the valid rows in another. One column's
/// marks are lent as they are.
#[inline(never)]
fn plain_sums(batch: &Batch) -> (Vec<i64>, Cow<'_, [bool]>) {
    let sums = batch.first.iter().zip(&batch.second).map(|(x, y)| x.wrapping_add(*y)).collect();
    let valid = match &batch.second_valid {
        None => Cow::Borrowed(&batch.first_valid[..]),
        Some(second) => {
            Cow::Owned(batch.first_valid.iter().zip(second).map(|(x, y)| x & y).collect())
        }
    };
    (sums, valid)
}

/// The total over the rounds of the number in the row of that round, whose sums are made anew in each round.
#[inline(never)]
fn plain_execute_rows(rows: usize, rounds: usize, both: bool) -> i64 {
    let batch = Batch::new(rows, both);
    let mut total = 0i64;
    for round in 0..rounds {
        let answer = plain_sums(black_box(&batch));
        let (sums, valid) = black_box(&answer);
        if round < rows && valid[round] {
            total = total.wrapping_add(sums[round]);
        }
    }
    total
}

/// As [`plain_execute_rows`], for a column without nulls beside a constant that stands in a register.
#[inline(never)]
fn plain_beside_a_constant(rows: usize, rounds: usize) -> i64 {
    let first: Vec<i64> = (0..rows as i64).collect();
    let mut total = 0i64;
    for round in 0..rounds {
        let constant = black_box(9i64);
        let sums: Vec<i64> = black_box(&first).iter().map(|x| x.wrapping_add(constant)).collect();
        let sums = black_box(&sums);
        if round < rows {
            total = total.wrapping_add(sums[round]);
        }
    }
    total
}

/// A number from 0 to 9 that is pseudorandom in the row, as in `rowbench`: the mix of `splitmix64`.
fn pseudorandom_digit(row: usize) -> u64 {
    let start = (row as u64).wrapping_mul(0x9E37_79B9_7F4A_7C15);
    let first = (start ^ (start >> 30)).wrapping_mul(0xBF58_476D_1CE4_E5B9);
    let second = (first ^ (first >> 27)).wrapping_mul(0x94D0_49BB_1331_11EB);
    (second ^ (second >> 31)) % 10
}

/// Two columns of numbers, the first of which is null at pseudorandom rows. The valid rows are marked, and are the set bits of words.
struct Scattered {
    first: Vec<i64>,
    second: Vec<i64>,
    valid: Vec<bool>,
    words: Vec<u64>,
}

impl Scattered {
    fn new(rows: usize, nulls: u64) -> Scattered {
        let valid: Vec<bool> = (0..rows).map(|i| pseudorandom_digit(i) >= nulls).collect();
        let word = |marks: &[bool]| marks.iter().rev().fold(0, |word, mark| word << 1 | *mark as u64);
        Scattered {
            first: (0..rows as i64).collect(),
            second: (0..rows as i64).collect(),
            words: valid.chunks(64).map(word).collect(),
            valid,
        }
    }

    fn full_rows(&self) -> usize {
        self.valid.iter().filter(|mark| **mark).count()
    }
}

/// The sums at the marked rows, among zeros.
#[inline(never)]
fn plain_sums_by_marks(batch: &Scattered) -> Vec<i64> {
    let rows = batch.valid.len();
    let (first, second) = (&batch.first[..rows], &batch.second[..rows]);
    let mut sums = vec![0; rows];
    for (i, mark) in batch.valid.iter().enumerate() {
        if *mark {
            sums[i] = first[i].wrapping_add(second[i]);
        }
    }
    sums
}

/// The sums at the rows whose bits are set, among zeros.
#[inline(never)]
fn plain_sums_by_words(batch: &Scattered) -> Vec<i64> {
    let rows = batch.valid.len();
    let (first, second) = (&batch.first[..rows], &batch.second[..rows]);
    let mut sums = vec![0; rows];
    for (i, word) in batch.words.iter().enumerate() {
        let mut rest = *word;
        while rest != 0 {
            let row = i * 64 + rest.trailing_zeros() as usize;
            sums[row] = first[row].wrapping_add(second[row]);
            rest &= rest - 1;
        }
    }
    sums
}

/// The total over the rounds of the number in the row of that round, whose sums are made anew in each round.
fn plain_full_rows(batch: &Scattered, rounds: usize, sums: fn(&Scattered) -> Vec<i64>) -> i64 {
    let mut total = 0i64;
    for round in 0..rounds {
        let answer = sums(black_box(batch));
        let answer = black_box(&answer);
        if round < answer.len() && batch.valid[round] {
            total = total.wrapping_add(answer[round]);
        }
    }
    total
}

/// The least times of two works over several trials, which take turns, in nanoseconds a row.
fn least<P: FnMut(), R: FnMut()>(rows: usize, rounds: usize, mut proved: P, mut plain: R) -> (f64, f64) {
    let (mut first, mut second) = (f64::MAX, f64::MAX);
    for _ in 0..25 {
        let start = Instant::now();
        proved();
        let middle = Instant::now();
        plain();
        first = first.min((middle - start).as_secs_f64());
        second = second.min(middle.elapsed().as_secs_f64());
    }
    let scale = 1e9 / (rows * rounds) as f64;
    (first * scale, second * scale)
}

/// The least times of two works in nanoseconds a row, without what each takes for no round.
fn least_of_rounds<P: FnMut(usize), R: FnMut(usize)>(
    rows: usize, rounds: usize, mut proved: P, mut plain: R,
) -> (f64, f64) {
    let whole = least(rows, rounds, || proved(rounds), || plain(rounds));
    let start = least(rows, rounds, || proved(0), || plain(0));
    (whole.0 - start.0, whole.1 - start.1)
}

fn report(name: &str, rows: usize, (proved, plain): (f64, f64)) {
    println!("{name:<28}{rows:>10}{proved:>10.3}{plain:>10.3}{:>8.2}", proved / plain);
}

fn sums(rows: usize, rounds: usize) {
    let xs: Vec<i64> = (0..rows as i64).collect();
    let ys: Vec<i64> = (0..rows as i64).rev().collect();
    let (mut first, mut second) = (vec![0; rows], vec![0; rows]);
    let times = least(
        rows,
        rounds,
        || {
            for _ in 0..rounds {
                proved_map_into(black_box(&xs), black_box(&ys), black_box(&mut first));
            }
        },
        || {
            for _ in 0..rounds {
                plain_map_into(black_box(&xs), black_box(&ys), black_box(&mut second));
            }
        },
    );
    assert_eq!(first, second);
    report("map_into over two i64", rows, times);
}

fn conjunctions(rows: usize, rounds: usize) {
    // SAFETY: the function asks nothing of its numbers.
    let proved = |rounds| unsafe { rowbench_and(rows, rounds) };
    assert_eq!(proved(16), plain_and(rows, 16));
    let times = least_of_rounds(
        rows,
        rounds,
        |rounds| _ = black_box(proved(rounds)),
        |rounds| _ = black_box(plain_and(rows, rounds)),
    );
    report("and of two bit buffers", rows, times);
}

fn rows_of_tuples(rows: usize, rounds: usize, constant: bool) {
    // SAFETY: the function asks nothing of its numbers.
    let proved = |rounds| unsafe { rowbench_map_rows(rows, rounds, constant) };
    assert_eq!(proved(1), plain_map_rows(rows, 1, constant));
    let times = least_of_rounds(
        rows,
        rounds,
        |rounds| _ = black_box(proved(rounds)),
        |rounds| _ = black_box(plain_map_rows(rows, rounds, constant)),
    );
    let name = if constant { "map_rows, one a constant" } else { "map_rows over two columns" };
    report(name, rows, times);
}

/// Reports whole calls of this shape beside a plain work that answers the same.
fn executions<R: Fn(usize) -> i64>(name: &str, rows: usize, rounds: usize, shape: u8, plain: R) {
    // SAFETY: the function asks nothing of its numbers.
    let proved = |rounds| unsafe { rowbench_execute_rows(rows, rounds, shape) };
    assert_eq!(proved(16), plain(16));
    let times = least_of_rounds(
        rows,
        rounds,
        |rounds| _ = black_box(proved(rounds)),
        |rounds| _ = black_box(plain(rounds)),
    );
    report(name, rows, times);
}

/// Reports whole calls whose rows run only where no argument is null, in nanoseconds a full row, beside a plain loop over
/// marks, and beside one over words.
fn executions_of_full_rows(name: &str, rows: usize, rounds: usize, shape: u8, nulls: u64) {
    // SAFETY: the function asks nothing of its numbers.
    let proved = |rounds| unsafe { rowbench_execute_rows(rows, rounds, shape) };
    let batch = Scattered::new(rows, nulls);
    let loops: [(&str, fn(&Scattered) -> Vec<i64>); 2] =
        [("marks", plain_sums_by_marks), ("words", plain_sums_by_words)];
    for (by, sums) in loops {
        assert_eq!(proved(64), plain_full_rows(&batch, 64, sums));
        let times = least_of_rounds(
            batch.full_rows(),
            rounds,
            |rounds| _ = black_box(proved(rounds)),
            |rounds| _ = black_box(plain_full_rows(&batch, rounds, sums)),
        );
        report(&format!("{name}, {by}"), rows, times);
    }
}

/// Two constants beside two columns with nulls in one, both through the proved call.
fn executions_of_constants(rows: usize, rounds: usize) {
    // SAFETY: the function asks nothing of its numbers.
    let constants = |rounds| unsafe { rowbench_execute_rows(rows, rounds, 3) };
    let columns = |rounds| unsafe { rowbench_execute_rows(rows, rounds, 0) };
    assert_eq!(constants(16), 16 * 18);
    let times = least_of_rounds(
        rows,
        rounds,
        |rounds| _ = black_box(constants(rounds)),
        |rounds| _ = black_box(columns(rounds)),
    );
    println!("{:<28}{rows:>10}{:>10.5}{:>10.3}{:>8.5}", "constants to columns", times.0, times.1, times.0 / times.1);
}

fn main() {
    println!("{:<28}{:>10}{:>10}{:>10}{:>8}", "loop", "rows", "proved", "plain", "ratio");
    for rows in [1024, 65536, 1_000_000] {
        let rounds = 8_000_000 / rows;
        sums(rows, rounds);
        conjunctions(rows, rounds);
        rows_of_tuples(rows, rounds, false);
        rows_of_tuples(rows, rounds, true);
        let plain = |both| move |rounds| plain_execute_rows(rows, rounds, both);
        executions("execute_rows, nulls in one", rows, rounds, 0, plain(false));
        executions("execute_rows, nulls in both", rows, rounds, 1, plain(true));
        let plain = |rounds| plain_beside_a_constant(rows, rounds);
        executions("execute_rows, a constant", rows, rounds, 2, plain);
        executions("execute_rows, prepared", rows, rounds, 4, plain);
        executions_of_full_rows("a tenth null", rows, rounds, 5, 1);
        executions_of_full_rows("nine tenths null", rows, rounds, 6, 9);
        checked::calls(rows, rounds);
    }
    executions_of_constants(1 << 20, 8);
}
