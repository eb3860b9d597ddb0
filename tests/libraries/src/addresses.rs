//! The text of addresses, and the orders on them.

use address::{Address, Entry, before, compare, read};
use std::alloc::Global;
use std::cmp::Ordering;
use std::test::Fail;

fn place(alloc: Global, text: &str) -> Result<Address, Fail> {
    Ok(read(alloc, text.as_bytes())?.ok_or("an address")?)
}

const TEXTS: [(&str, &[Entry]); 4] = [
    ("", &[]),
    (".0", &[Entry::Ordered(0)]),
    ("/4294967295", &[Entry::Branch(4294967295)]),
    (
        "/0.1.0",
        &[Entry::Branch(0), Entry::Ordered(1), Entry::Ordered(0)],
    ),
];

#[test]
fn texts_are_read(rt: HostRuntime) -> Result<(), Fail> {
    for (text, entries) in TEXTS {
        let place = place(rt.alloc(), text)?;
        assert!(rt; place.entries() == entries, "{text}");
    }
    Ok(())
}

#[test]
fn texts_are_written(rt: HostRuntime) -> Result<(), Fail> {
    for (text, entries) in TEXTS {
        let place = Address::from_vec(Vec::from_slice(rt.alloc(), entries)?);
        let written = format!(in rt.alloc(); "{place}")?;
        assert_eq!(rt; written.as_str(), text);
    }
    Ok(())
}

#[test]
fn other_texts_are_refused(rt: HostRuntime) -> Result<(), Fail> {
    for text in [
        "/",
        "0",
        "/0.",
        "/00",
        "/4294967296",
        "/1a",
        "./0",
        ".01",
        "/0 ",
    ] {
        assert!(rt; read(rt.alloc(), text.as_bytes())?.is_none(), "{text}");
    }
    Ok(())
}

/// Two places, whether the first comes before the second, and how they compare.
const ORDERS: [(&str, &str, bool, Ordering); 9] = [
    ("/0.1", "/0.2.0", true, Ordering::Less),
    ("/0.2.0", "/0.1", false, Ordering::Greater),
    ("/0/0.1", "/0/1.2", false, Ordering::Less),
    ("/0.1", "/0.1.0", false, Ordering::Less),
    (".0/5", "/0", false, Ordering::Less),
    ("/0.5", "/0/0", false, Ordering::Less),
    ("/10", "/9", false, Ordering::Greater),
    ("/0.5", "/0.5", false, Ordering::Equal),
    (".9", ".10", true, Ordering::Less),
];

#[test]
fn places_are_ordered(rt: HostRuntime) -> Result<(), Fail> {
    for (one, other, comes_before, order) in ORDERS {
        let first = place(rt.alloc(), one)?;
        let second = place(rt.alloc(), other)?;
        assert!(rt; before(&first, &second) == comes_before, "{one} {other}");
        assert!(rt; compare(&first, &second) == order, "{one} {other}");
    }
    Ok(())
}

// Each allocation here may fail: tests/memory/run shows an error for each of them, and never another answer.
#[test]
fn copies(rt: HostRuntime) -> Result<(), Fail> {
    let place = place(rt.alloc(), "/0.7")?;
    let made = place.copy(rt.alloc())?;
    assert!(rt; made.equals(&place));
    let Ok(entries) = made.into_vec() else {
        return Err(Fail::from(std::alloc::AllocError));
    };
    assert_eq!(rt;
        entries.as_slice(),
        [Entry::Branch(0), Entry::Ordered(7)].as_slice()
    );
    Ok(())
}

// Places of up to 5 entries stand in the value, longer ones on the heap; nobody sees which.
#[test]
fn short_and_long_places_are_alike(rt: HostRuntime) -> Result<(), Fail> {
    for length in 0..12 {
        let mut entries = Vec::new(rt.alloc());
        for number in 0..length {
            entries.push(Entry::Ordered(number))?;
        }
        let made = Address::new(rt.alloc(), entries.as_slice())?;
        let below = Address::below(rt.alloc(), made.entries(), Entry::Branch(7))?;
        entries.push(Entry::Branch(7))?;
        assert_eq!(rt; below.entries(), entries.as_slice());
        assert!(rt; below.copy(rt.alloc())?.equals(&Address::from_vec(entries)));
    }
    Ok(())
}
