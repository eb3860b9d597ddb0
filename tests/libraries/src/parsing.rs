//! What only the parser itself shows: spans of commands, lists of tokens that no source has, and want of memory.

use lexer::{Token, lex};
use parser::{Fault, parse, refusal_within};
use std::alloc::Global;
use std::test::Fail;
use syntax::{Action, Command, Description};

pub fn parsed(alloc: Global, source: &[u8]) -> Result<Description, Fail> {
    let tokens = lex(alloc, source)?;
    Ok(parse(alloc, tokens.as_slice())?)
}

/// The last of the commands in sequence that the first procedure does.
fn last_of_sequence(description: &Description) -> Option<&Command> {
    match description.procedures.get(0)?.body.action.get() {
        Action::Sequence(children) => children.as_slice().last(),
        _ => None,
    }
}

#[test]
fn a_bracket_behind_a_command_is_not_part_of_it(rt: HostRuntime) -> Result<(), Fail> {
    let source = b"procedure p is begin halt ; halt || [continue ; halt] end";
    let description = parsed(rt.alloc(), source)?;
    match last_of_sequence(&description) {
        Some(last) => assert_eq!(rt; last.span.stop, 52),
        None => assert!(rt; false, "no sequence"),
    }
    Ok(())
}

/// How the tokens are refused, if they are. Want of memory fails the test.
fn refusal_of(alloc: Global, tokens: &[Token]) -> Result<Option<Fault>, Fault> {
    match parse(alloc, tokens) {
        Ok(_) => Ok(None),
        Err(Fault::Memory) => Err(Fault::Memory),
        Err(fault) => Ok(Some(fault)),
    }
}

#[test]
fn a_list_without_its_end_is_read_as_if_it_had_one(rt: HostRuntime) -> Result<(), Fail> {
    let mut tokens = lex(rt.alloc(), b"procedure p is begin halt end ")?;
    tokens.pop();
    assert_eq!(rt; refusal_of(rt.alloc(), tokens.as_slice())?, None);
    tokens.pop();
    let said = refusal_of(rt.alloc(), tokens.as_slice())?;
    assert_eq!(rt; said, Some(Fault::Unexpected(25)));
    let said = refusal_of(rt.alloc(), &[])?;
    assert_eq!(rt; said, Some(Fault::Unexpected(0)));
    Ok(())
}

#[test]
fn what_begins_no_description_is_told(rt: HostRuntime) -> Result<(), Fail> {
    let whole = lex(rt.alloc(), b"procedure p is begin halt end")?;
    let [front @ .., _end] = whole.as_slice() else {
        return Err(Fail::from("no tokens"));
    };
    assert_eq!(rt; refusal_within(rt.alloc(), whole.as_slice()), None);
    assert_eq!(rt; refusal_within(rt.alloc(), front), None);
    assert_eq!(rt; refusal_within(rt.alloc(), &[]), None);
    let other = lex(rt.alloc(), b"procedure p is begin halt ;")?;
    let [front @ .., _end] = other.as_slice() else {
        return Err(Fail::from("no tokens"));
    };
    assert_eq!(rt; refusal_within(rt.alloc(), front), None);
    // The end of the source is a token too.
    let said = refusal_within(rt.alloc(), other.as_slice());
    assert_eq!(rt; said, Some(Fault::Unexpected(27)));
    let wrong = lex(rt.alloc(), b"procedure p is begin end")?;
    let said = refusal_within(rt.alloc(), wrong.as_slice());
    assert_eq!(rt; said, Some(Fault::Unexpected(21)));
    Ok(())
}

/// Holds whichever allocation fails, so it is for runs in which one does.
#[test]
fn without_memory_there_is_no_other_answer(rt: HostRuntime) {
    let source = b"type b is 8 bits procedure p (sync s) is sync t begin [sync t] || sync s end";
    if let Ok(tokens) = lex(rt.alloc(), source) {
        match parse(rt.alloc(), tokens.as_slice()) {
            Ok(description) => assert_eq!(rt; description.procedures.len(), 1),
            Err(fault) => assert_eq!(rt; fault, Fault::Memory),
        }
    }
}
