//! One sheet on standard input, its answer on standard output.

use std::io::{self, Read, Write};

fn main() -> io::Result<()> {
    let mut text = Vec::new();
    io::stdin().lock().read_to_end(&mut text)?;
    let mut out = io::stdout().lock();
    out.write_all(&second::answer(&text))?;
    out.flush()
}
