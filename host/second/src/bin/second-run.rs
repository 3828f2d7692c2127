//! The run program of the second implementation: standard input to standard output.

use std::io;

fn main() -> io::Result<()> {
    second::runfile::run(io::stdin().lock(), io::stdout().lock())
}
