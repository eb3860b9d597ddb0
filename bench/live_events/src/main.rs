//! Times the calls of `Live` on lists of events, and prints nanoseconds a call: of the list of this number and so many events,
//! the two words behind the program's name. Without them it prints the names of the lists.
#![tactic(auto)]

mod behind;
mod lists;
mod times;

use lists::{ROWS, Row};
use std::{env, io};
use times::time_row;

/// The word behind the program's name at this index as a number.
fn number_at(rt: &HostRuntime, index: usize) -> io::Result<Option<u32>> {
    match env::args(rt)?.nth(index) {
        Some(word) => match word.parse() {
            Ok(number) => Ok(Some(number)),
            Err(_) => Err(io::Error::other("a word is no number")),
        },
        None => Ok(None),
    }
}

/// Prints the names of all lists.
fn tell_names(rt: &HostRuntime) -> io::Result<()> {
    for row in ROWS {
        let name = row.name();
        println!(rt; "{name}")?;
    }
    Ok(())
}

/// The list of this number.
fn row_at(number: u32) -> io::Result<Row> {
    match ROWS.get(number as usize) {
        Some(row) => Ok(*row),
        None => Err(io::Error::other("there is no such list")),
    }
}

fn main(rt: HostRuntime) -> io::Result<()> {
    let Some(number) = number_at(&rt, 1)? else {
        return tell_names(&rt);
    };
    let row = row_at(number)?;
    match number_at(&rt, 2)? {
        Some(size) => time_row(&rt, row, size),
        None => Err(io::Error::other("how many events is not said")),
    }
}
