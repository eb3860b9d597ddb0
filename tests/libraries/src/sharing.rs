//! Variables that branches may share, which no description can declare.

use crate::parsing::parsed;
use elaborate::{Stimulus, elaborate};
use sharing_check::{Checked, Fault, check_sharing};
use std::alloc::{AllocError, Global};
use std::test::Fail;
use syntax::Items;
use system::{System, Variable, VariableTable};
use types::{Typed, check_types};

fn typed(alloc: Global, source: &[u8]) -> Result<Typed, Fail> {
    let description = parsed(alloc, source)?;
    Ok(check_types(alloc, &description)?)
}

/// The system of the source, with no stimulus.
fn system(alloc: Global, source: &[u8]) -> Result<System, Fail> {
    let typed = typed(alloc, source)?;
    let stimulus = Stimulus::read(alloc, b"")?;
    Ok(elaborate(alloc, &typed, &stimulus)?)
}

/// The variables, all of which the branches may share.
fn shared(alloc: Global, variables: &VariableTable) -> Result<VariableTable, AllocError> {
    let mut shared = Items::new(alloc);
    for variable in variables.as_slice() {
        shared.push(Variable {
            name: variable.name.clone()?,
            width: variable.width,
            shared: true,
        })?;
    }
    VariableTable::new(alloc, shared)
}

/// The system of the source, where all variables are shared.
pub fn racing(alloc: Global, source: &[u8]) -> Result<Checked, Fail> {
    let mut system = system(alloc, source)?;
    system.variables = shared(alloc, &system.variables)?;
    Ok(check_sharing(alloc, system)?)
}

/// Why the system is refused, if it is. Want of memory fails the test.
fn refusal(alloc: Global, system: System) -> Result<Option<Fault>, Fail> {
    match check_sharing(alloc, system) {
        Ok(_) => Ok(None),
        Err(Fault::Memory) => Err(AllocError)?,
        Err(fault) => Ok(Some(fault)),
    }
}

const SOURCE: &[u8] =
    b"procedure p is channel c : 8 bits variable x : 8 bits begin c -> x || c <- x end";

#[test]
fn branches_may_share_a_shared_variable(rt: HostRuntime) -> Result<(), Fail> {
    let mut system = system(rt.alloc(), SOURCE)?;
    system.variables = shared(rt.alloc(), &system.variables)?;
    assert_eq!(rt; system.variables.len(), 1);
    assert_eq!(rt; refusal(rt.alloc(), system)?, None);
    Ok(())
}
