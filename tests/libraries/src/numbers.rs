//! The numbers and texts of refusals.

use calculus::Refusal;
use std::test::Fail;

#[test]
fn refusals_have_numbers_and_texts(rt: HostRuntime) -> Result<(), Fail> {
    let all = [
        (Refusal::Memory, 1, "there is no memory left"),
        (Refusal::NotReady, 21, "no event may be taken there now"),
        (
            Refusal::HistoryFull,
            22,
            "as many events are live as may be",
        ),
        (Refusal::NoSuchEvent, 23, "no live event has this ticket"),
        (Refusal::NeededBy(7), 24, "event 7 depends on it"),
        (
            Refusal::NeverWritten,
            25,
            "no live event wrote this variable",
        ),
        (Refusal::Spent, 26, "no ticket is left"),
        (
            Refusal::BreaksFull,
            27,
            "as many lines have a breakpoint as may have one",
        ),
        (Refusal::NoSuchLine, 28, "no command begins on this line"),
    ];
    for (refusal, number, text) in all {
        assert_eq!(rt; refusal.number(), number);
        let said = format!(in rt.alloc(); "{refusal}")?;
        assert_eq!(rt; said.as_str(), text);
    }
    Ok(())
}
