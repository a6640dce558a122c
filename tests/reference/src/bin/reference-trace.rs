//! Reads a pack on standard input and prints its trace.

use reference::{trace, MAXIMUM_PACK};
use std::io::{self, Read, Write};

fn main() -> io::Result<()> {
    // One byte above the limit is enough to know that the pack is refused.
    let limit = MAXIMUM_PACK as u64 + 1;
    let mut pack = Vec::with_capacity(MAXIMUM_PACK + 1);
    io::stdin().lock().take(limit).read_to_end(&mut pack)?;
    io::stdout().lock().write_all(&trace(&pack))
}
