//! The programs' way from standard input to standard output.

use crate::job::MOST_INPUT;
use std::io::{self, Read, Write};

/// One byte more than the most is enough to see that the input is long. A reading that fails
/// is treated as the end of the input, and what came before it stands. A pattern's input may have
/// any length, but what stands past so many bytes changes nothing that is printed.
fn read_input() -> Vec<u8> {
    let mut input = Vec::new();
    let most = MOST_INPUT as u64 + 1;
    match io::stdin().take(most).read_to_end(&mut input) {
        Ok(_) | Err(_) => input,
    }
}

/// Prints what a program makes of its input.
pub fn filter(run: fn(&[u8]) -> Vec<u8>) -> io::Result<()> {
    io::stdout().write_all(&run(&read_input()))
}
