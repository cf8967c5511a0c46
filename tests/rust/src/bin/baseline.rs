//! The baseline as a program: reads a job from standard input and prints the line that the check program prints.

use std::io::Read;

fn main() -> std::io::Result<()> {
    let mut job = Vec::new();
    std::io::stdin().read_to_end(&mut job)?;
    println!("{}", second::baseline::check(&job).line());
    Ok(())
}
