//! Descriptions that are accepted, and one for sessions: a value in and out again.

use debug_session::{Counted, Fault, accept, debug};
use sharing_check::Checked;
use std::alloc::Global;
use std::io::{BufReader, Read, Write};
use std::test::Fail;

pub const ONE: &[u8] = b"type byte is 8 bits procedure one (input i : byte; output o : byte) is \
variable x : byte begin i -> x ; o <- x end";

pub const FIVE: &[u8] = b"i = 5\n";

/// The system of the source, with a stimulus that says nothing.
pub fn checked(alloc: Global, source: &[u8]) -> Result<Checked, Fail> {
    Ok(accept(alloc, source, b"")?)
}

/// A session over the description, with devices that count their failures.
pub fn over<R: Read, W: Write>(alloc: Global, reader: &mut R, writer: &mut W) -> Result<(), Fault> {
    let Ok(buffered) = BufReader::with_capacity(alloc, 256, reader) else {
        return Err(Fault::Memory);
    };
    debug(
        alloc,
        &mut Counted::new(buffered),
        &mut Counted::new(writer),
        ONE,
        FIVE,
    )
}
