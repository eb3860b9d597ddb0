//! Trees of syntax, and what holds their parts.

use std::alloc::{AllocError, Global};
use std::test::Fail;
use syntax::{Action, Boxed, Command, Expr, Identifier, Items, Name, Operator, Shape, Span};

fn span(start: u64, stop: u64) -> Span {
    Span {
        start,
        stop,
        line: 1,
    }
}

fn identifier(alloc: Global, start: u64, text: &[u8]) -> Result<Identifier, AllocError> {
    Ok(Identifier {
        span: span(start, start.saturating_add(text.len() as u64)),
        name: Name::new(alloc, text)?,
    })
}

fn number(alloc: Global, start: u64, value: u64) -> Result<Expr, AllocError> {
    let place = span(start, start.saturating_add(1));
    Expr::new(alloc, place, Shape::Number(value))
}

#[test]
fn a_box_gives_back_what_it_holds(rt: HostRuntime) -> Result<(), Fail> {
    let boxed = Boxed::new(rt.alloc(), 7u64)?;
    assert_eq!(rt; *boxed.get(), 7);
    assert_eq!(rt; boxed.into_inner(), 7);
    Ok(())
}

#[test]
fn items_keep_their_order(rt: HostRuntime) -> Result<(), Fail> {
    let mut items = Items::with_capacity(rt.alloc(), 4)?;
    assert!(rt; items.is_empty());
    items.push(3u64)?;
    items.push(5)?;
    assert_eq!(rt; items.len(), 2);
    assert_eq!(rt; items.get(1), Some(&5));
    assert_eq!(rt; items.get(2), None);
    assert_eq!(rt; items.pop(), Some(5));
    let again = Items::from_vec(items.into_vec());
    assert_eq!(rt; again.as_slice(), [3].as_slice());
    Ok(())
}

#[test]
fn an_identifier_is_copied(rt: HostRuntime) -> Result<(), Fail> {
    let first = identifier(rt.alloc(), 4, b"buffer")?;
    let copy = first.clone()?;
    assert!(rt; copy.name == first.name && copy.span == first.span);
    Ok(())
}

#[test]
fn names_are_equal_by_their_bytes(rt: HostRuntime) -> Result<(), Fail> {
    let name = Name::new(rt.alloc(), b"buffer")?;
    assert!(rt; name.clone()? == name);
    assert!(rt; Name::new(rt.alloc(), b"Buffer")? != name);
    let long = Name::new(rt.alloc(), b"the_buffer_behind_the_arbiter")?;
    assert!(rt; long.clone()? == long && long != name);
    Ok(())
}

#[test]
fn parentheses_widen_the_span_alone(rt: HostRuntime) -> Result<(), Fail> {
    // ((1)+2)
    let one = number(rt.alloc(), 2, 1)?.parenthesised(span(1, 4));
    let two = number(rt.alloc(), 5, 2)?;
    let whole = one.span.through(two.span);
    let sum = Expr::new(rt.alloc(), whole, Shape::Binary(Operator::Add, one, two))?;
    let sum = sum.parenthesised(span(0, 7));
    assert_eq!(rt; sum.span, span(0, 7));
    assert_eq!(rt; sum.own_start, 1);
    let Shape::Binary(operator, left, right) = sum.shape.get() else {
        return Err(Fail::from("no sum"));
    };
    assert_eq!(rt; *operator, Operator::Add);
    assert_eq!(rt; left.own_start, 2);
    assert_eq!(rt; right.own_start, 5);
    Ok(())
}

/// `x := 1 ; sync go`, from byte 0
fn sequence(alloc: Global) -> Result<Command, AllocError> {
    let value = number(alloc, 5, 1)?;
    let assign = Action::Assign(identifier(alloc, 0, b"x")?, value);
    let assign = Command::new(alloc, span(0, 6), assign)?;
    let sync = Action::Sync(identifier(alloc, 14, b"go")?);
    let sync = Command::new(alloc, span(9, 16), sync)?;
    let whole = assign.span.through(sync.span);
    let mut children = Items::with_capacity(alloc, 2)?;
    children.push(assign)?;
    children.push(sync)?;
    Command::new(alloc, whole, Action::Sequence(children))
}

#[test]
fn a_sequence_is_read_back(rt: HostRuntime) -> Result<(), Fail> {
    let command = sequence(rt.alloc())?;
    assert_eq!(rt; command.span, span(0, 16));
    let Action::Sequence(children) = command.action.get() else {
        return Err(Fail::from("no sequence"));
    };
    let last = children.get(1).ok_or("one child")?;
    let Action::Sync(channel) = last.action.get() else {
        return Err(Fail::from("no sync"));
    };
    assert_eq!(rt; channel.name.text(), b"go".as_slice());
    Ok(())
}
