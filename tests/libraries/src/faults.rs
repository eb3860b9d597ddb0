//! The numbers and texts of faults: as the pass gives them that refuses, and as a session hands them on.

use calculus::Refusal;
use debug_session::Fault;
use devices::{ReadFault, WriteFailed};
use std::alloc::Global;
use std::test::Fail;

const OF_TOKENS: [(lexer::Fault, u32, &str); 4] = [
    (lexer::Fault::Memory, 1, "out of memory"),
    (
        lexer::Fault::BadCharacter(7),
        2,
        "the byte at offset 7 begins no name, number, symbol or comment",
    ),
    (
        lexer::Fault::OpenComment(7),
        3,
        "the comment at offset 7 is not closed",
    ),
    (
        lexer::Fault::NumberTooLarge(7),
        4,
        "the number at offset 7 is too large",
    ),
];

const OF_GRAMMAR: [(parser::Fault, u32, &str); 3] = [
    (parser::Fault::Memory, 1, "out of memory"),
    (
        parser::Fault::Unexpected(7),
        5,
        "no description goes on with what stands at offset 7",
    ),
    (
        parser::Fault::TooDeep(7),
        6,
        "the token at offset 7 would open more than 64 levels",
    ),
];

const OF_TYPES: [(types::Fault, u32, &str); 9] = [
    (types::Fault::Memory, 1, "out of memory"),
    (
        types::Fault::UnknownName(7),
        7,
        "the name at offset 7 is not declared",
    ),
    (
        types::Fault::NameTwice(7),
        8,
        "the name at offset 7 is declared already",
    ),
    (
        types::Fault::WrongKind(7),
        9,
        "the name at offset 7 denotes another kind of thing",
    ),
    (
        types::Fault::TooWide(7),
        10,
        "what stands at offset 7 is too wide, or has no width from 1 to 64",
    ),
    (
        types::Fault::GuardNotOneBit(7),
        11,
        "the guard at offset 7 is not one bit wide",
    ),
    (
        types::Fault::BadArm(7),
        12,
        "the label or channel at offset 7 stood before, or is too wide",
    ),
    (
        types::Fault::PortMismatch(7),
        13,
        "the arguments of the call at offset 7 do not fit the ports",
    ),
    (
        types::Fault::EnclosedTwice(7),
        17,
        "the channel at offset 7 is enclosed already",
    ),
];

const OF_SIZE: [(elaborate::Fault, u32, Option<u64>, &str); 3] = [
    (elaborate::Fault::Memory, 1, None, "out of memory"),
    (
        elaborate::Fault::TooManyNodes,
        14,
        None,
        "the system has more than 16384 nodes, or a command inside more than 1024 others",
    ),
    (
        elaborate::Fault::BadStimulus(7),
        51,
        Some(7),
        "line 7 of the stimulus fits no port",
    ),
];

const OF_SHARING: [(sharing_check::Fault, u32, &str); 3] = [
    (sharing_check::Fault::Memory, 1, "out of memory"),
    (
        sharing_check::Fault::SharedVariable(7),
        15,
        "the variable at offset 7 is used in one branch and written in another",
    ),
    (
        sharing_check::Fault::SharedChannel(7),
        16,
        "too many branches use the channel that is declared at offset 7",
    ),
];

const OF_TRACES: [(trace_file::Fault, u32, Option<u64>, &str); 7] = [
    (trace_file::Fault::Memory, 1, None, "out of memory"),
    (
        trace_file::Fault::BadHeader,
        31,
        None,
        "the trace does not begin with a header",
    ),
    (
        trace_file::Fault::BadLine(7),
        32,
        Some(7),
        "line 7 of the trace is no step",
    ),
    (
        trace_file::Fault::NotAStep(7),
        33,
        Some(7),
        "the step of line 7 of the trace cannot be taken",
    ),
    (
        trace_file::Fault::NotCanonical(7),
        34,
        Some(7),
        "line 7 of the trace is not the step that comes next in canonical order",
    ),
    (
        trace_file::Fault::ReadFailed,
        41,
        None,
        "the trace could not be read",
    ),
    (
        trace_file::Fault::WriteFailed,
        42,
        None,
        "the trace could not be written",
    ),
];

const OF_SESSIONS: [(Fault, u32, Option<u64>, &str); 5] = [
    (Fault::Memory, 1, None, "out of memory"),
    (Fault::ReadFailed, 41, None, "the script could not be read"),
    (
        Fault::WriteFailed,
        42,
        None,
        "the answers could not be written",
    ),
    (
        Fault::BadCommand(7),
        61,
        Some(7),
        "line 7 of the script is no command",
    ),
    (
        Fault::Refused(Refusal::NoSuchEvent),
        23,
        None,
        "no live event has this ticket",
    ),
];

/// Whether a session tells the fault by this number, what stands behind it, and this text.
fn is_told(
    alloc: Global,
    fault: Fault,
    number: u32,
    field: Option<u64>,
    text: &str,
) -> Result<bool, Fail> {
    let said = format!(in alloc; "{fault}")?;
    Ok(fault.number() == number && fault.field() == field && said.as_str() == text)
}

/// Where a source is refused: at offset 7 in each row, but for want of memory.
fn place_of(number: u32) -> Option<u64> {
    if number == 1 { None } else { Some(7) }
}

/// Whether the fault of a source is told so by each crate that hands it on.
fn is_handed_on(
    alloc: Global,
    fault: typed_source::Fault,
    number: u32,
    text: &str,
) -> Result<bool, Fail> {
    let said = format!(in alloc; "{fault}")?;
    let outer = front_end::Fault::from(fault);
    let behind = format!(in alloc; "{outer}")?;
    Ok(
        said.as_str() == text
            && behind.as_str() == text
            && outer.number() == number
            && outer.field() == place_of(number)
            && is_told(alloc, Fault::from(outer), number, place_of(number), text)?,
    )
}

#[test]
fn faults_of_a_source_are_told(rt: HostRuntime) -> Result<(), Fail> {
    for (fault, number, text) in OF_TOKENS {
        assert_eq!(rt; fault.number(), number);
        assert_eq!(rt; fault.offset(), place_of(number));
        let said = format!(in rt.alloc(); "{fault}")?;
        assert_eq!(rt; said.as_str(), text);
        assert!(rt;
            is_handed_on(rt.alloc(), fault.into(), number, text)?,
            "{text}"
        );
    }
    for (fault, number, text) in OF_GRAMMAR {
        assert_eq!(rt; fault.number(), number);
        assert_eq!(rt; fault.offset(), place_of(number));
        let said = format!(in rt.alloc(); "{fault}")?;
        assert_eq!(rt; said.as_str(), text);
        assert!(rt;
            is_handed_on(rt.alloc(), fault.into(), number, text)?,
            "{text}"
        );
    }
    for (fault, number, text) in OF_TYPES {
        assert_eq!(rt; fault.number(), number);
        assert_eq!(rt; fault.offset(), place_of(number));
        let said = format!(in rt.alloc(); "{fault}")?;
        assert_eq!(rt; said.as_str(), text);
        assert!(rt;
            is_handed_on(rt.alloc(), fault.into(), number, text)?,
            "{text}"
        );
    }
    Ok(())
}

#[test]
fn faults_of_a_system_are_told(rt: HostRuntime) -> Result<(), Fail> {
    for (fault, number, field, text) in OF_SIZE {
        assert_eq!(rt; fault.number(), number);
        assert_eq!(rt; fault.line(), field);
        let said = format!(in rt.alloc(); "{fault}")?;
        assert_eq!(rt; said.as_str(), text);
        let outer = front_end::Fault::from(fault);
        assert_eq!(rt; outer.number(), number);
        assert!(rt;
            is_told(rt.alloc(), outer.into(), number, field, text)?,
            "{text}"
        );
    }
    for (fault, number, text) in OF_SHARING {
        assert_eq!(rt; fault.number(), number);
        assert_eq!(rt; fault.offset(), place_of(number));
        let said = format!(in rt.alloc(); "{fault}")?;
        assert_eq!(rt; said.as_str(), text);
        let outer = front_end::Fault::from(fault);
        assert_eq!(rt; outer.number(), number);
        assert!(rt;
            is_told(rt.alloc(), outer.into(), number, place_of(number), text)?,
            "{text}"
        );
    }
    Ok(())
}

#[test]
fn faults_of_traces_and_sessions_are_told(rt: HostRuntime) -> Result<(), Fail> {
    for (fault, number, field, text) in OF_TRACES {
        assert_eq!(rt; fault.number(), number);
        assert_eq!(rt; fault.field(), field);
        let said = format!(in rt.alloc(); "{fault}")?;
        assert_eq!(rt; said.as_str(), text);
        assert!(rt;
            is_told(rt.alloc(), fault.into(), number, field, text)?,
            "{text}"
        );
    }
    for (fault, number, field, text) in OF_SESSIONS {
        assert!(rt; is_told(rt.alloc(), fault, number, field, text)?, "{text}");
    }
    Ok(())
}

#[test]
fn faults_of_devices_and_of_memory_are_told(rt: HostRuntime) -> Result<(), Fail> {
    let devices = [
        (ReadFault::Memory, 1, "out of memory"),
        (ReadFault::Failed, 41, "reading failed"),
    ];
    for (fault, number, text) in devices {
        assert_eq!(rt; fault.number(), number);
        let said = format!(in rt.alloc(); "{fault}")?;
        assert_eq!(rt; said.as_str(), text);
    }
    let fault = WriteFailed;
    assert_eq!(rt; fault.number(), 42);
    let said = format!(in rt.alloc(); "{fault}")?;
    assert_eq!(rt; said.as_str(), "writing failed");
    let fault = machine::Fault::Memory;
    assert_eq!(rt; fault.number(), 1);
    let said = format!(in rt.alloc(); "{fault}")?;
    assert_eq!(rt; said.as_str(), "out of memory");
    assert!(rt; is_told(rt.alloc(), fault.into(), 1, None, "out of memory")?);
    let fault = locked_execution::Fault::Memory;
    assert_eq!(rt; fault.number(), 1);
    let said = format!(in rt.alloc(); "{fault}")?;
    assert_eq!(rt; said.as_str(), "out of memory");
    assert!(rt; is_told(rt.alloc(), fault.into(), 1, None, "out of memory")?);
    Ok(())
}
