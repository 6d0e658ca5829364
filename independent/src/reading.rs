//! How the listing programs read: inputs of one size, one after the other, and lines of each.

use std::io::{self, Read, Write};

/// Reads inputs of N bytes from standard input, as many as come, and writes the lines of each. Input
/// that ends inside an input ends the output with `short`.
pub fn write_each<const N: usize>(
    out: &mut impl Write,
    lines: impl Fn([u8; N]) -> Vec<String>,
) -> io::Result<()> {
    let mut bytes = Vec::new();
    io::stdin().lock().read_to_end(&mut bytes)?;
    let inputs = bytes.chunks_exact(N);
    let left = inputs.remainder().len();
    for input in inputs {
        let input = input.try_into().expect("a piece has N bytes");
        for line in lines(input) {
            writeln!(out, "{line}")?;
        }
    }
    if left != 0 {
        writeln!(out, "short")?;
    }
    Ok(())
}
