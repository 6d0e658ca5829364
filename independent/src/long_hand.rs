//! RULES, The root on paper: the root as it is taken by hand. A number is a row of binary digits, and
//! what is done to it is what is done on paper: digits are written behind a row or struck out, two rows
//! are compared, and one is taken off the other digit by digit.

use crate::root::{self, Answer};

/// Binary digits, the highest first. But for pairs and radicands, none has zeros in front: 0 is the
/// row without digits, and of two rows the longer one is the larger number.
type Row = Vec<u8>;

/// Step 3: a sheet. The pairs still to come are kept beside it.
#[derive(Default)]
struct Sheet {
    digits: Row,
    remainder: Row,
}

/// RULES, Lines 6: the lines for a word. The last one, the root's, has no line feed behind it.
pub fn lines(word: u64) -> String {
    let answer = root::root(word);
    match answer {
        Answer::Root(r) if r > 0.0 => format!("{}{answer}", paper(f64::from_bits(word), r)),
        _ => answer.to_string(),
    }
}

/// The lines before that of r, the root of x, which is above zero. It stops where the last sheet
/// doesn't come to r.
fn paper(x: f64, r: f64) -> String {
    let u = in_steps(x);
    let h = (u.len() + 967) / 2;
    let radicand = radicand(&u, h);
    let mut sheet = Sheet::default();
    let mut text = String::new();
    for (pair, turn) in radicand.chunks_exact(2).zip(1..) {
        let (trial, digit) = sheet.turn(pair);
        let [pair, trial, left] = [pair, &trial, &sheet.remainder].map(number);
        text += &format!("turn {turn} {pair} {trial} {digit} {left}\n");
    }
    let rounded = number(&rounded(&sheet.digits));
    assert!(
        sheet.is_last(&radicand) && ((h as u128 + 1) << 52) + rounded == r.to_bits() as u128,
        "by hand the root of {x:e} does not come to {r:e}"
    );
    text + &format!("rounded {} {rounded}\n", number(&sheet.digits))
}

impl Sheet {
    /// Step 4: leads to the next sheet, and says the trial and the digit.
    fn turn(&mut self, pair: &[u8]) -> (Row, u8) {
        let stands = with(&self.remainder, pair);
        let trial = with(&self.digits, &[0, 1]);
        let fits = (trial.len(), &trial) <= (stands.len(), &stands);
        self.remainder = if fits {
            taken_off(&trial, stands)
        } else {
            stands
        };
        self.digits = with(&self.digits, &[u8::from(fits)]);
        (trial, u8::from(fits))
    }

    /// Step 5, for the whole radicand.
    fn is_last(&self, radicand: &[u8]) -> bool {
        let [digits, left] = [&self.digits, &self.remainder].map(|row| number(row));
        digits * digits + left == number(radicand) && left <= 2 * digits
    }
}

/// Step 1: u, a number above zero in steps of 2^-1074.
fn in_steps(x: f64) -> Row {
    let (m, e) = root::parts(x);
    let mut row: Row = format!("{m:b}").bytes().map(|digit| digit - b'0').collect();
    row.resize(row.len() + (e + 1074) as usize, 0);
    row
}

/// Steps 1 and 2: the radicand, in 54 pairs. A row is multiplied by a power of two by writing zeros
/// behind it, and divided by striking them out.
fn radicand(u: &[u8], h: usize) -> Row {
    let mut v = [u, &[0; 1020]].concat();
    let struck = v.split_off(v.len() - 2 * h);
    assert!(
        !struck.contains(&1) && (53..=54).contains(&v.len()),
        "v is no whole number of 53 or 54 digits"
    );
    let front = if v.len() == 53 { &[0][..] } else { &[] };
    [front, &v, &[0; 54]].concat()
}

/// Step 6: the digits, and one, halved without the remainder. One more: the last 0 becomes a 1, and
/// each 1 behind it a 0.
fn rounded(digits: &[u8]) -> Row {
    let mut row = [&[0], digits].concat();
    let last = row.iter().rposition(|&digit| digit == 0);
    let (_, changed) = row.split_at_mut(last.expect("a 0 stands in front"));
    changed.fill(0);
    changed[0] = 1;
    row.pop();
    with(&row, &[])
}

/// A row with more digits behind it.
fn with(row: &[u8], behind: &[u8]) -> Row {
    let digits = row.iter().chain(behind).copied();
    digits.skip_while(|&digit| digit == 0).collect()
}

/// What is left of a row when another that is not larger is taken off it: from the last digits on,
/// and a digit that is too small borrows two from the digit before.
fn taken_off(other: &[u8], mut row: Row) -> Row {
    let mut off = other.iter().rev();
    let mut borrowed = 0;
    for digit in row.iter_mut().rev() {
        let taken = off.next().unwrap_or(&0) + borrowed;
        borrowed = u8::from(*digit < taken);
        *digit = *digit + 2 * borrowed - taken;
    }
    assert!(borrowed == 0, "a larger number was taken off");
    with(&row, &[])
}

/// A row's number, as it is printed and checked.
fn number(row: &[u8]) -> u128 {
    row.iter()
        .fold(0, |number, &digit| 2 * number + u128::from(digit))
}
