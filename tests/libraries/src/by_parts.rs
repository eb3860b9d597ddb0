//! A description whose procedures are typed one by one.

use crate::parsing::parsed;
use std::alloc::{AllocError, Global};
use std::slice;
use std::test::Fail;
use syntax::Description;
use types::{Fault, Typed, Typing};

fn typed_by_parts(alloc: Global, description: &Description) -> Result<Typed, Fault> {
    let mut typing = Typing::new(alloc, description.types.as_slice())?;
    for procedure in description.procedures.as_slice() {
        typing.add(alloc, slice::from_ref(procedure))?;
    }
    typing.finish()
}

/// Why the source is refused, if it is. Want of memory fails the test.
fn refusal(alloc: Global, source: &[u8]) -> Result<Option<Fault>, Fail> {
    let description = parsed(alloc, source)?;
    match typed_by_parts(alloc, &description) {
        Ok(_) => Ok(None),
        Err(Fault::Memory) => Err(AllocError)?,
        Err(fault) => Ok(Some(fault)),
    }
}

#[test]
fn a_procedure_calls_one_of_an_earlier_part(rt: HostRuntime) -> Result<(), Fail> {
    let source = b"procedure q (sync s) is begin sync s end \
        procedure p is sync c begin q (c) || sync c end";
    let description = parsed(rt.alloc(), source)?;
    let typed = typed_by_parts(rt.alloc(), &description)?;
    let names: [&[u8]; 2] = [b"q", b"p"];
    assert_eq!(rt; typed.procedures().len(), 2);
    for (procedure, name) in typed.procedures().iter().zip(names) {
        assert_eq!(rt; procedure.name.text(), name);
    }
    Ok(())
}

#[test]
fn a_name_of_an_earlier_part_is_taken(rt: HostRuntime) -> Result<(), Fail> {
    let source = b"procedure p is begin halt end procedure p is begin halt end";
    assert_eq!(rt; refusal(rt.alloc(), source)?, Some(Fault::NameTwice(40)));
    Ok(())
}

#[test]
fn a_fault_of_the_types_goes_before_those_of_later_parts(rt: HostRuntime) -> Result<(), Fail> {
    let source = b"type t is 65 bits procedure p is begin x := 1 end";
    assert_eq!(rt; refusal(rt.alloc(), source)?, Some(Fault::TooWide(10)));
    Ok(())
}
