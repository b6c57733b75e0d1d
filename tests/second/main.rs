//! `second`: reads a record file from standard input and prints what `cuts` is to print for it.

use std::io::{Read, Write};

fn main() -> std::io::Result<()> {
    let mut file = Vec::new();
    let one_too_long = second::file::LONGEST as u64 + 1;
    std::io::stdin().take(one_too_long).read_to_end(&mut file)?;
    std::io::stdout().write_all(second::lines::text(&file).as_bytes())
}
