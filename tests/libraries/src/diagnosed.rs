//! What is told of faults, where memory may be refused; the texts of all numbers stand in tests/diagnosis.

use diagnosis::{Input, Inputs, explain};
use refusal_pages::{NUMBERS, page_of, page_text};
use source_places::{place_of, start_of_line};
use std::alloc::{AllocError, Global};
use std::test::Fail;

/// What is told of a fault in a source.
fn told(alloc: Global, number: u32, offset: u64, source: &[u8]) -> Result<String, AllocError> {
    let inputs = Inputs {
        source: Input {
            name: "p",
            bytes: source,
        },
        stimulus: None,
        trace: None,
        script: None,
        unread: None,
    };
    explain(alloc, number, Some(offset), &inputs)
}

#[test]
fn a_place_counts_lines_and_characters(rt: HostRuntime) {
    let text = "one\n\ttw\u{f6}\nthree".as_bytes();
    let place = place_of(text, 9);
    assert_eq!(rt; (place.line, place.column, place.start), (2, 5, 4));
    let place = place_of(text, 4);
    assert_eq!(rt; (place.line, place.column, place.start), (2, 1, 4));
    let place = place_of(text, 100);
    assert_eq!(rt; (place.line, place.column, place.start), (3, 6, 10));
    assert_eq!(rt; start_of_line(text, 3), Some(10));
    assert_eq!(rt; start_of_line(text, 4), None);
    assert_eq!(rt; start_of_line(text, 0), None);
}

#[test]
fn each_number_has_a_page(rt: HostRuntime) -> Result<(), Fail> {
    for number in NUMBERS {
        let page = page_of(number).ok_or("no page")?;
        assert_eq!(rt; page.number, number);
        let text = page_text(rt.alloc(), page)?;
        assert!(rt; text.as_str().contains(page.name));
        assert!(rt; text.as_str().ends_with('\n'));
    }
    assert!(rt; page_of(0).is_none());
    assert!(rt; page_of(18).is_none());
    assert!(rt; page_of(62).is_none());
    Ok(())
}

#[test]
fn a_word_that_cannot_stand_is_told(rt: HostRuntime) -> Result<(), Fail> {
    let text = told(rt.alloc(), 5, 15, b"procedure p is begni halt end")?;
    assert_eq!(rt;
        text.as_str(),
        "p:1:16: `begni` cannot stand here: expected `begin`, `channel`, `shared`, `sync` or `variable`\n  1 | procedure p is begni halt end\n    |                ^^^^^\n  help: did you mean `begin`?\n"
    );
    Ok(())
}

#[test]
fn widths_are_told(rt: HostRuntime) -> Result<(), Fail> {
    let source = b"procedure p is variable x : 8 bits begin x := 255 + 1 end";
    let text = told(rt.alloc(), 10, 46, source)?;
    assert_eq!(rt;
        text.as_str(),
        "p:1:47: `255 + 1` is 9 bits wide, and `x` has 8\n  1 | procedure p is variable x : 8 bits begin x := 255 + 1 end\n    |                         -                     ^^^^^^^\n    |                         declared here\n  help: cut it by `(255 + 1 as 8 bits)`, or make `x` wider\n"
    );
    Ok(())
}

#[test]
fn two_uses_that_clash_are_told(rt: HostRuntime) -> Result<(), Fail> {
    let source = b"procedure p is variable x, y : 8 bits begin x := 1 || y := x end";
    let text = told(rt.alloc(), 15, 44, source)?;
    assert!(rt;
        text.as_str().contains(
            "    |                                             ^              - and read here\n"
        )
    );
    let source = b"procedure p is sync s begin sync s || sync s || sync s end";
    let text = told(rt.alloc(), 16, 20, source)?;
    assert!(rt; text.as_str().contains("`s` has three syncs at one time\n"));
    Ok(())
}

/// A source, a number and an offset that have nothing to do with one another.
#[test]
fn a_fault_of_another_source_is_told_somehow(rt: HostRuntime) -> Result<(), Fail> {
    let sources: [&[u8]; 4] = [
        b"",
        b"procedure",
        b"procedure p is begin halt end",
        b"\xff\n\r",
    ];
    for source in sources {
        for number in NUMBERS {
            told(rt.alloc(), number, 10, source)?;
            told(rt.alloc(), number, u64::MAX, source)?;
        }
    }
    Ok(())
}
