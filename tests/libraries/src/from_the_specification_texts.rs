//! A client of the calls that read and write text: lines of a script, whole sessions, views and traces. It is written as the
//! one of `from_the_specification` is.

use crate::from_the_specification::{ARBITER, BOTH, BUFFER, FED, TWO_BUFFERS, checked};
use crate::from_the_specification_events::{FOUR_STEPS, events_of, machine_behind, tickets};
use calculus::{Choice, Event};
use debug_session::{Line, Session, debug, read_command, write_reply};
use devices::Counted;
use locked_execution::{Command, Reply, Shared};
use machine::{Breaks, Machine, Refusal};
use source_view::view;
use std::alloc::Global;
use std::io::{self, BufReader, Read};
use std::test::Fail;
use trace_file::{load, save};
use value::Value;

#[test]
fn lines_are_read_as_commands(rt: HostRuntime) -> Result<(), Fail> {
    let alloc = rt.alloc();
    let checked = checked(alloc, BUFFER, FED)?;
    let read = |line: &str| read_command(alloc, &checked, line.as_bytes(), 7);
    assert!(rt;
        matches!(
            read("step /0.1.0 3")?,
            Line::Asked(Command::Step(Choice { arm: 3, .. }))
        )
    );
    assert!(rt;
        matches!(
            read("step /0.1.0")?,
            Line::Asked(Command::Step(Choice { arm: 0, .. }))
        )
    );
    assert!(rt; matches!(read("undo 0")?, Line::Asked(Command::Undo(0))));
    assert!(rt;
        matches!(
            read("undo 18446744073709551615")?,
            Line::Asked(Command::Undo(u64::MAX))
        )
    );
    assert!(rt; matches!(read("roll 2")?, Line::Asked(Command::Roll(2))));
    assert!(rt; matches!(read("rollvalue x")?, Line::Asked(Command::RollValue(0))));
    assert!(rt; matches!(read("blame x")?, Line::Asked(Command::Blame(0))));
    assert!(rt;
        matches!(
            read("consequences 3")?,
            Line::Asked(Command::Consequences(3))
        )
    );
    assert!(rt; matches!(read("value x")?, Line::Asked(Command::Value(0))));
    assert!(rt; matches!(read("ready")?, Line::Asked(Command::Ready)));
    assert!(rt; matches!(read("live")?, Line::Asked(Command::Live)));
    assert!(rt; matches!(read("branch 9")?, Line::Asked(Command::Branch(9))));
    assert!(rt; matches!(read("break 0")?, Line::Asked(Command::Break(0))));
    assert!(rt; matches!(read("clear 2")?, Line::Asked(Command::Clear(2))));
    assert!(rt; matches!(read("session 15")?, Line::Session(15)));
    assert!(rt; matches!(read("view")?, Line::View));
    assert!(rt; matches!(read("trace")?, Line::Trace));
    assert!(rt; matches!(read("")?, Line::Empty));
    Ok(())
}

#[test]
fn other_lines_are_refused_with_their_number(rt: HostRuntime) -> Result<(), Fail> {
    let alloc = rt.alloc();
    let checked = checked(alloc, BUFFER, FED)?;
    for line in [
        "jump",
        "live ",
        " live",
        "session 16",
        "undo",
        "undo 01",
        "undo  1",
        "value z",
        "step 0.0",
        "step /00.0",
        "step /0.0 4294967296",
        "undo 18446744073709551616",
        "branch 4294967296",
        "view 1",
        "Live",
        "live\r",
    ] {
        let refused = read_command(alloc, &checked, line.as_bytes(), 7);
        assert!(rt;
            matches!(refused, Err(debug_session::Fault::BadCommand(7))),
            "{line}"
        );
    }
    Ok(())
}

#[test]
fn replies_are_written_as_lines(rt: HostRuntime) -> Result<(), Fail> {
    let alloc = rt.alloc();
    let checked = checked(alloc, BUFFER, FED)?;
    let turn: Event = events_of(alloc, BUFFER, FED, &["/0.0"])?
        .pop()
        .ok_or("no event")?;
    for (command, reply, line) in [
        (
            Command::Branch(0),
            Reply::Stepped(7, turn.copy(alloc)?),
            "step 7 turn /0.0\n",
        ),
        (
            Command::Undo(9),
            Reply::Undone(9, turn.copy(alloc)?),
            "undone 9 turn /0.0\n",
        ),
        (Command::Roll(1), Reply::Rolled(2), "rolled 2\n"),
        (Command::RollValue(0), Reply::Rolled(1), "rolled 1\n"),
        (Command::Blame(0), Reply::Blamed(3), "blame 3\n"),
        (
            Command::Value(0),
            Reply::Value(Value { bits: 5, width: 8 }),
            "value x 5\n",
        ),
        (Command::Branch(0), Reply::Stopped(2), "stopped 2\n"),
        (Command::Branch(0), Reply::Idle, "idle\n"),
        (Command::Break(2), Reply::Done, "ok\n"),
        (Command::Clear(2), Reply::Done, "ok\n"),
    ] {
        let written: Vec<u8> = write_reply(alloc, &checked, &Line::Asked(command), &reply)?;
        assert!(rt; written.as_slice() == line.as_bytes(), "{line}");
    }
    Ok(())
}

#[test]
fn a_refusal_is_written_with_its_ticket(rt: HostRuntime) -> Result<(), Fail> {
    let alloc = rt.alloc();
    let checked = checked(alloc, BUFFER, FED)?;
    for (refusal, text) in [
        (Refusal::Memory, "refused 1\n"),
        (Refusal::NoSuchEvent, "refused 23\n"),
        (Refusal::NeededBy(3), "refused 24 3\n"),
        (Refusal::Spent, "refused 26\n"),
    ] {
        let line = Line::Asked(Command::Undo(1));
        let written = write_reply(alloc, &checked, &line, &Reply::Refused(refusal))?;
        assert!(rt; written.as_slice() == text.as_bytes(), "{text}");
    }
    Ok(())
}

#[test]
fn a_session_answers_lines_by_its_pass(rt: HostRuntime) -> Result<(), Fail> {
    let alloc = rt.alloc();
    let checked = checked(alloc, BUFFER, FED)?;
    let (shared, mut passes) = Shared::new(alloc, Machine::new(alloc, checked.clone()?)?, 1)?;
    let mut session = Session {
        pass: passes.pop().ok_or("no pass")?,
    };
    for (line, answer, length) in [
        ("step /0.0", "step 1 turn /0.0\n", 1),
        ("", "", 1),
        ("step /0.0", "refused 21\n", 2),
        ("live", "live 1\n  1 turn /0.0\n", 3),
        ("undo 1", "undone 1 turn /0.0\n", 4),
    ] {
        let bytes = session.answer(&rt, alloc, &shared, &checked, line.as_bytes(), 1)?;
        assert!(rt; bytes.as_slice() == answer.as_bytes(), "{line}");
        assert_eq!(rt; shared.length(&mut session.pass), length, "{line}");
    }
    for line in ["session 0", "view", "trace", "jump", "undo"] {
        let refused = session.answer(&rt, alloc, &shared, &checked, line.as_bytes(), 9);
        assert!(rt;
            matches!(refused, Err(debug_session::Fault::BadCommand(9))),
            "{line}"
        );
    }
    assert_eq!(rt; shared.length(&mut session.pass), 4);
    Ok(())
}

/// What `debug` writes, and the number of its end, 0 for none.
fn debugged(
    alloc: Global,
    source: &str,
    stimulus: &str,
    script: &str,
) -> Result<(Vec<u8>, u32), Fail> {
    let mut written = Vec::new(alloc);
    let mut reader = Counted::new(BufReader::new(alloc, script.as_bytes())?);
    let mut writer = Counted::new(&mut written);
    let ended = debug(
        alloc,
        &mut reader,
        &mut writer,
        source.as_bytes(),
        stimulus.as_bytes(),
    );
    let number = match ended {
        Ok(()) => 0,
        Err(fault) => fault.number(),
    };
    Ok((written, number))
}

#[test]
fn a_script_gives_its_transcript(rt: HostRuntime) -> Result<(), Fail> {
    let alloc = rt.alloc();
    for Script {
        source,
        stimulus,
        lines,
        answers,
    } in SCRIPTS {
        let (written, number) = debugged(alloc, source, stimulus, lines)?;
        assert!(rt; written.as_slice() == answers.as_bytes(), "{lines}");
        assert_eq!(rt; number, 0, "{lines}");
    }
    Ok(())
}

#[test]
fn a_session_ends_at_the_first_fault(rt: HostRuntime) -> Result<(), Fail> {
    let alloc = rt.alloc();
    for (source, stimulus, script, answers, number) in [
        (
            BUFFER,
            FED,
            "ready\njump\nready\n",
            "ready 1\n  turn /0.0\n",
            61,
        ),
        (BUFFER, FED, "step /0.0\nundo", "step 1 turn /0.0\n", 61),
        (BUFFER, "i = 256", "ready\n", "", 51),
        (BUFFER, "i = 5 ", "ready\n", "", 51),
        ("procedure p @", "i =  1", "ready\n", "", 2),
        ("procedure p", "i =  1", "ready\n", "", 5),
        ("procedure p is begin q () end", "i =  1", "ready\n", "", 7),
        (
            "procedure p is sync s begin sync s || sync s || sync s end",
            "",
            "ready\n",
            "",
            16,
        ),
        (
            "procedure p is variable x : 8 bits begin x := 255 + 1 end",
            "",
            "ready\n",
            "",
            10,
        ),
    ] {
        let (written, found) = debugged(alloc, source, stimulus, script)?;
        assert!(rt; written.as_slice() == answers.as_bytes(), "{source}");
        assert_eq!(rt; found, number, "{source}");
    }
    Ok(())
}

/// A source with its stimulus, the lines of a script, and what they are answered.
#[derive(Clone, Copy)]
struct Script {
    source: &'static str,
    stimulus: &'static str,
    lines: &'static str,
    answers: &'static str,
}

const SELECT: &str = "type byte is 8 bits
procedure sel (input a, b : byte; output o : byte) is begin
select a then o <- a
| b then o <- b
end
end
";

const FORK: &str =
    "type byte is 8 bits procedure fork (input i : byte; output a, b : byte) is variable x : byte \
    begin i -> then [a <- i || b <- i] end ; i -> x end";

const ONE_VALUE: &str =
    "type byte is 8 bits procedure one (input i : byte; output o : byte) is variable x : byte \
    begin i -> x ; o <- x end";

const SCRIPTS: [Script; 22] = [
    Script {
        source: BUFFER,
        stimulus: FED,
        lines: "ready\nstep /0.0\nstep /0.1.0\nstep /2.0\nundo 2\nundo 1\nundo 3\nundo 2\nundo 1\nlive\nstep /0.0\n",
        answers: "ready 1\n  turn /0.0\nstep 1 turn /0.0\nstep 2 meet i 5 /1.0.0 /0.1.0\n\
            step 3 meet o 5 /0.1.1.0 /2.0\nrefused 24 3\nrefused 24 2\nundone 3 meet o 5 /0.1.1.0 /2.0\n\
            undone 2 meet i 5 /1.0.0 /0.1.0\nundone 1 turn /0.0\nlive 0\nstep 4 turn /0.0\n",
    },
    Script {
        source: TWO_BUFFERS,
        stimulus: FED,
        lines: "step /0/0.0\nstep /0/1.0\nundo 1\nlive\n",
        answers: "step 1 turn /0/0.0\nstep 2 turn /0/1.0\nundone 1 turn /0/0.0\nlive 1\n  2 turn /0/1.0\n",
    },
    Script {
        source: TWO_BUFFERS,
        stimulus: FED,
        lines: "step /0/0.0\nstep /0/1.0\nstep /0/0.1.0\nstep /0/1.1.0\nroll 1\nstep /0/0.0\nlive\n",
        answers: "step 1 turn /0/0.0\nstep 2 turn /0/1.0\nstep 3 meet i 5 /1.0.0 /0/0.1.0\n\
            step 4 meet c 5 /0/0.1.1.0 /0/1.1.0\nrolled 3\nstep 5 turn /0/0.0\nlive 2\n  2 turn /0/1.0\n  \
            5 turn /0/0.0\n",
    },
    Script {
        source: TWO_BUFFERS,
        stimulus: FED,
        lines: "step /0/0.0\nstep /0/1.0\nstep /0/0.1.0\nstep /0/1.1.0\nconsequences 1\nconsequences 2\nundo 2\n\
            roll 2\nlive\nvalue 1:x\nblame 1:x\nblame 2:x\nready\n",
        answers: "step 1 turn /0/0.0\nstep 2 turn /0/1.0\nstep 3 meet i 5 /1.0.0 /0/0.1.0\n\
            step 4 meet c 5 /0/0.1.1.0 /0/1.1.0\nconsequences 1 3 4\nconsequences 2 4\nrefused 24 4\nrolled 2\n\
            live 2\n  1 turn /0/0.0\n  3 meet i 5 /1.0.0 /0/0.1.0\nvalue 1:x 5\nblame 3\nrefused 25\nready 1\n  \
            turn /0/1.0\n",
    },
    Script {
        source: FORK,
        stimulus: FED,
        lines: "step /0.0.0\nready\nstep /2.0\nundo 1\nstep /0.1\nstep /3.0\nstep /0.0.2\nstep /0.1\n",
        answers: "step 1 open i 5 0 /1.0.0 /0.0.0\nready 2\n  meet a 5 /0.0.1/0.0 /2.0\n  meet b 5 /0.0.1/1.0 /3.0\n\
            step 2 meet a 5 /0.0.1/0.0 /2.0\nrefused 24 2\nrefused 21\nstep 3 meet b 5 /0.0.1/1.0 /3.0\n\
            step 4 close i /1.0.1 /0.0.2\nstep 5 meet i 7 /1.1.0 /0.1\n",
    },
    Script {
        source: ARBITER,
        stimulus: BOTH,
        lines: "ready\nstep /0.0 0\nundo 1\nstep /0.0 1\nundo 1\n",
        answers: "ready 2\n  open a 5 0 /1.0.0 /0.0\n  open b 7 1 /2.0.0 /0.0\nstep 1 open a 5 0 /1.0.0 /0.0\n\
            undone 1 open a 5 0 /1.0.0 /0.0\nstep 2 open b 7 1 /2.0.0 /0.0\nrefused 23\n",
    },
    Script {
        source: SELECT,
        stimulus: BOTH,
        lines: "break 3\nbreak 5\nview\nstep /0.0 1",
        answers: "ok\nrefused 28\n    1     type byte is 8 bits\n    \
            2     procedure sel (input a, b : byte; output o : byte) is begin\n    3 >*! select a then o <- a\n    \
            4     | b then o <- b\n    5     end\n    6     end\nstep 1 open b 7 1 /2.0.0 /0.0\n",
    },
    Script {
        source: "procedure p is variable x, y : 8 bits begin loop [x := 1 || y := 2] end end",
        stimulus: "",
        lines: "step /0.0\nstep /0.1/0\nstep /0.1/1\nstep /0.2\nundo 4\nundo 2\nvalue x\nvalue y\nready\n",
        answers: "step 1 turn /0.0\nstep 2 assign x 1 /0.1/0\nstep 3 assign y 2 /0.1/1\nstep 4 turn /0.2\n\
            undone 4 turn /0.2\nundone 2 assign x 1 /0.1/0\nvalue x 0\nvalue y 2\nready 1\n  assign x 1 /0.1/0\n",
    },
    Script {
        source: "procedure p is sync s begin sync s || sync s end",
        stimulus: "",
        lines: "ready\nstep /0/1.0\nstep /0/0.0\n",
        answers: "ready 1\n  sync s /0/0.0 /0/1.0\nrefused 21\nstep 1 sync s /0/0.0 /0/1.0\n",
    },
    Script {
        source: "procedure p is variable x : 8 bits begin x := (255 + 1 as 8 bits) ; x := 0 - 1 ; x := 200 - 201 end",
        stimulus: "",
        lines: "step /0.0\nstep /0.1\nstep /0.2\n",
        answers: "step 1 assign x 0 /0.0\nstep 2 assign x 1 /0.1\nstep 3 assign x 255 /0.2\n",
    },
    Script {
        source: "procedure p is variable x : 8 bits begin x := 1 ; x := 2 end",
        stimulus: "",
        lines: "blame x\nstep /0.0\nstep /0.1\nblame x\nrollvalue x\nvalue x\nrollvalue x\nvalue x\nrollvalue x\n",
        answers: "refused 25\nstep 1 assign x 1 /0.0\nstep 2 assign x 2 /0.1\nblame 2\nrolled 1\nvalue x 1\n\
            rolled 1\nvalue x 0\nrefused 25\n",
    },
    Script {
        source: BUFFER,
        stimulus: "i =",
        lines: "\nstep /0.0\n\nready\n",
        answers: "step 1 turn /0.0\nready 0\n",
    },
    Script {
        source: "procedure p is sync s begin sync s || select s then continue end end",
        stimulus: "",
        lines: "step /0/1.0\nstep /0/1.2\nready\n",
        answers: "step 1 open s - 0 /0/0.0 /0/1.0\nstep 2 close s /0/0.1 /0/1.2\nready 0\n",
    },
    Script {
        source: BUFFER,
        stimulus: FED,
        lines: "break 1\nbreak 2\nbranch 0\nsession 1\nbranch 0\nbranch 1\nbranch 9\n",
        answers: "refused 28\nok\nstopped 2\nsession 1\nstep 1 turn /0.0\nidle\nidle\n",
    },
    Script {
        source: ONE_VALUE,
        stimulus: "i = 5",
        lines: "step /0.0\nstep /2.0\nundo 1\nvalue x\nundo 2\nundo 1\nvalue x\n",
        answers: "step 1 meet i 5 /1.0.0 /0.0\nstep 2 meet o 5 /0.1.0 /2.0\nrefused 24 2\nvalue x 5\n\
            undone 2 meet o 5 /0.1.0 /2.0\nundone 1 meet i 5 /1.0.0 /0.0\nvalue x 0\n",
    },
    Script {
        source: "procedure p is variable x : 8 bits begin loop while x < 2 then x := (x + 1 as 8 bits) end end",
        stimulus: "",
        lines: "step /0.0\nstep /0.1\nstep /0.2\nstep /0.3\nstep /0.4\nready\nundo 2\nundo 5\n",
        answers: "step 1 test 0 /0.0\nstep 2 assign x 1 /0.1\nstep 3 test 0 /0.2\nstep 4 assign x 2 /0.3\n\
            step 5 test none /0.4\nready 0\nrefused 24 3\nundone 5 test none /0.4\n",
    },
    Script {
        source: "procedure p is variable x : 8 bits begin case x of 1, 2 then halt else x := 4 end end",
        stimulus: "",
        lines: "step /0.0\nstep /0.1\n",
        answers: "step 1 test 1 /0.0\nstep 2 assign x 4 /0.1\n",
    },
    Script {
        source: "procedure p (sync s) is begin loop sync s end end",
        stimulus: "s * 1",
        lines: "step /0.0\nstep /0.1.0\nstep /0.2\nready\nundo 2\n",
        answers: "step 1 turn /0.0\nstep 2 sync s /0.1.0 /1.0.0\nstep 3 turn /0.2\nready 0\nrefused 24 3\n",
    },
    Script {
        source: "procedure p is variable x : 8 bits begin loop [x := 1 ; x := 2] end end",
        stimulus: "",
        lines: "step /0.0\nstep /0.1.0\nstep /0.1.1\nstep /0.2\nstep /0.3.0\nroll 3\nvalue x\nready\n",
        answers: "step 1 turn /0.0\nstep 2 assign x 1 /0.1.0\nstep 3 assign x 2 /0.1.1\nstep 4 turn /0.2\n\
            step 5 assign x 1 /0.3.0\nrolled 3\nvalue x 1\nready 1\n  assign x 2 /0.1.1\n",
    },
    Script {
        source: "procedure p is shared variable x : 8 bits variable y : 8 bits begin x := 1 || y := x end",
        stimulus: "",
        lines: "step /0/1\nstep /0/0\nundo 1\n",
        answers: "step 1 assign y 0 /0/1\nstep 2 assign x 1 /0/0\nrefused 24 2\n",
    },
    Script {
        source: "procedure p is shared variable x : 8 bits begin x := 1 || x := 2 end",
        stimulus: "",
        lines: "step /0/1\nstep /0/0\nblame x\nrollvalue x\nvalue x\n",
        answers: "step 1 assign x 2 /0/1\nstep 2 assign x 1 /0/0\nblame 2\nrolled 1\nvalue x 2\n",
    },
    Script {
        source: "procedure p is channel c : 8 bits variable x, y : 8 bits begin c -> x || [y := 3 ; c <- y] end",
        stimulus: "",
        lines: "step /0/1.0\nstep /0/0\ntrace\n",
        answers: "step 1 assign y 3 /0/1.0\nstep 2 meet c 3 /0/1.1.0 /0/0\nbalsadbg trace 2\nstep /0/1.0 0\nstep /0/0 0\n",
    },
];

#[test]
fn a_view_marks_its_lines(rt: HostRuntime) -> Result<(), Fail> {
    let alloc = rt.alloc();
    let machine = machine_behind(alloc, SELECT, BOTH, &[])?;
    let mut breaks = Breaks::new();
    let marked =
        "    1     type byte is 8 bits\n    2     procedure sel (input a, b : byte; output o : byte) is begin\n    \
        3 > ! select a then o <- a\n    4     | b then o <- b\n    5     end\n    6     end\n";
    let seen: Vec<u8> = view(alloc, &machine, &breaks, SELECT.as_bytes())?;
    assert!(rt; seen.as_slice() == marked.as_bytes());
    breaks.set(2)?;
    breaks.set(4)?;
    // The marks are those of the machine, whatever text is marked.
    for (source, lines) in [
        ("", ""),
        ("\n", "    1     \n"),
        (
            "a\n\nc\nd",
            "    1     a\n    2  *  \n    3 > ! c\n    4  *  d\n",
        ),
    ] {
        let seen = view(alloc, &machine, &breaks, source.as_bytes())?;
        assert!(rt; seen.as_slice() == lines.as_bytes(), "{source}");
    }
    Ok(())
}

/// What is loaded of this trace.
fn loaded(
    alloc: Global,
    source: &str,
    trace: &str,
) -> Result<Result<Machine, trace_file::Fault>, Fail> {
    let mut reader = Counted::new(trace.as_bytes());
    Ok(load(alloc, checked(alloc, source, FED)?, &mut reader))
}

/// The trace of a machine.
fn saved(alloc: Global, machine: &Machine) -> Result<Vec<u8>, Fail> {
    let mut written = Vec::new(alloc);
    let mut writer = Counted::new(&mut written);
    save(alloc, machine, &mut writer)?;
    Ok(written)
}

#[test]
fn a_trace_is_one_text_of_all_its_orders(rt: HostRuntime) -> Result<(), Fail> {
    let alloc = rt.alloc();
    let trace =
        "balsadbg trace 2\nstep /0/0.0 0\nstep /0/0.1.0 0\nstep /0/1.0 0\nstep /0/1.1.0 0\n";
    assert_eq!(rt; trace.len(), 77);
    let [first, second, third, fourth] = FOUR_STEPS;
    for steps in [
        FOUR_STEPS,
        [second, first, third, fourth],
        [first, third, second, fourth],
    ] {
        let machine = machine_behind(alloc, TWO_BUFFERS, FED, &steps)?;
        assert!(rt;
            saved(alloc, &machine)?.as_slice() == trace.as_bytes(),
            "{steps:?}"
        );
    }
    let again = loaded(alloc, TWO_BUFFERS, trace)??;
    assert!(rt; tickets(alloc, &again)?.as_slice() == [1, 2, 3, 4].as_slice());
    assert!(rt; saved(alloc, &again)?.as_slice() == trace.as_bytes());
    // Tickets that undos left out do not come back.
    let mut undone = machine_behind(alloc, BUFFER, FED, &["/0.0"])?;
    let _turn: Event = undone.undo(1)?;
    let (ticket, _event) = undone.step(&Choice {
        place: address::read(alloc, b"/0.0")?.ok_or("no address")?,
        arm: 0,
    })?;
    assert_eq!(rt; ticket, 2);
    assert!(rt; saved(alloc, &undone)?.as_slice() == b"balsadbg trace 2\nstep /0.0 0\n".as_slice());
    Ok(())
}

#[test]
fn a_trace_of_the_first_version_loads(rt: HostRuntime) -> Result<(), Fail> {
    let alloc = rt.alloc();
    let trace = "balsadbg trace 1\nstep /0.0 0\nstep /0.1.0 0\nstep /2.0 0\n";
    assert_eq!(rt; trace.len(), 55);
    for (text, live) in [(trace, 3), (&trace[..43], 2), (&trace[..17], 0)] {
        let machine = loaded(alloc, BUFFER, text)??;
        assert_eq!(rt; tickets(alloc, &machine)?.len(), live);
    }
    let disordered =
        "balsadbg trace 1\nstep /0/0.0 0\nstep /0/1.0 0\nstep /0/0.1.0 0\nstep /0/1.1.0 0\n";
    let machine = loaded(alloc, TWO_BUFFERS, disordered)??;
    assert!(rt; tickets(alloc, &machine)?.as_slice() == [1, 2, 3, 4].as_slice());
    let (_, second) = machine.live_at(1).ok_or("no event")?;
    assert!(rt;
        address::before(
            &second.choice(alloc)?.place,
            &address::read(alloc, b"/0/1.1")?.ok_or("no address")?
        )
    );
    Ok(())
}

/// The canonical trace of four steps of two buffers, with its third line before its second.
const DISORDERED: &str =
    "balsadbg trace 2\nstep /0/0.0 0\nstep /0/1.0 0\nstep /0/0.1.0 0\nstep /0/1.1.0 0\n";

/// Traces that do not load, with their refusal and its number.
const BAD_TRACES: [(&str, &str, trace_file::Fault, u32); 15] = [
    (BUFFER, "", trace_file::Fault::BadHeader, 31),
    (BUFFER, "\n", trace_file::Fault::BadHeader, 31),
    (
        BUFFER,
        "balsadbg trace 3\n",
        trace_file::Fault::BadHeader,
        31,
    ),
    (BUFFER, "balsadbg trace", trace_file::Fault::BadHeader, 31),
    (
        BUFFER,
        "balsadbg trace 1",
        trace_file::Fault::BadLine(1),
        32,
    ),
    (
        BUFFER,
        "balsadbg trace 2",
        trace_file::Fault::BadLine(1),
        32,
    ),
    (
        BUFFER,
        "balsadbg trace 1\nstep /0.0 0\nstep /0.1.0 0\nstep /2.",
        trace_file::Fault::BadLine(4),
        32,
    ),
    (
        BUFFER,
        "balsadbg trace 1\nstep /4294967296 0\n",
        trace_file::Fault::BadLine(2),
        32,
    ),
    (
        BUFFER,
        "balsadbg trace 1\nstep /00.0 0\n",
        trace_file::Fault::BadLine(2),
        32,
    ),
    (
        BUFFER,
        "balsadbg trace 1\nstep /0.0\n",
        trace_file::Fault::BadLine(2),
        32,
    ),
    (
        BUFFER,
        "balsadbg trace 1\n\n",
        trace_file::Fault::BadLine(2),
        32,
    ),
    (
        BUFFER,
        "balsadbg trace 1\nstep /0.1.0 0\nstep /0.0 0\n",
        trace_file::Fault::NotAStep(2),
        33,
    ),
    (
        BUFFER,
        "balsadbg trace 2\nstep /0.0 1\n",
        trace_file::Fault::NotAStep(2),
        33,
    ),
    (
        BUFFER,
        "balsadbg trace 1\nstep /0.1 0\nstep",
        trace_file::Fault::NotAStep(2),
        33,
    ),
    (
        TWO_BUFFERS,
        DISORDERED,
        trace_file::Fault::NotCanonical(3),
        34,
    ),
];

#[test]
fn a_trace_is_refused_at_its_first_bad_line(rt: HostRuntime) -> Result<(), Fail> {
    let alloc = rt.alloc();
    for (source, trace, fault, number) in BAD_TRACES {
        assert_eq!(rt; fault.number(), number);
        let refused = loaded(alloc, source, trace)?;
        assert!(rt; matches!(refused, Err(found) if found == fault), "{trace}");
    }
    Ok(())
}

/// A device that fails.
#[derive(Drop)]
struct Torn;

impl Read for Torn {
    fn read(&mut self, buf: &mut [u8]) -> io::Result<usize> {
        let _ = buf;
        Err(io::Error::from(io::ErrorKind::BrokenPipe))
    }
}

#[test]
fn failing_devices_end_what_reads_and_writes(rt: HostRuntime) -> Result<(), Fail> {
    let alloc = rt.alloc();
    let torn = load(alloc, checked(alloc, BUFFER, FED)?, &mut Counted::new(Torn));
    assert!(rt; matches!(torn, Err(trace_file::Fault::ReadFailed)));
    assert_eq!(rt; trace_file::Fault::ReadFailed.number(), 41);

    // A writer with room for twenty bytes: one that takes no byte has failed.
    let mut room = [0; 20];
    let machine = machine_behind(alloc, BUFFER, FED, &["/0.0"])?;
    let full = save(alloc, &machine, &mut Counted::new(room.as_mut_slice()));
    assert!(rt; matches!(full, Err(trace_file::Fault::WriteFailed)));
    assert_eq!(rt; trace_file::Fault::WriteFailed.number(), 42);
    assert!(rt; room.as_slice() == b"balsadbg trace 2\nste".as_slice());

    let mut written = Vec::new(alloc);
    let mut lines = Counted::new(BufReader::new(alloc, Torn)?);
    let ended = debug(
        alloc,
        &mut lines,
        &mut Counted::new(&mut written),
        BUFFER.as_bytes(),
        b"",
    );
    assert!(rt; matches!(ended, Err(debug_session::Fault::ReadFailed)));
    assert!(rt; written.is_empty());
    let mut lines = Counted::new(BufReader::new(alloc, b"live\n".as_slice())?);
    let mut small = [0; 3];
    let ended = debug(
        alloc,
        &mut lines,
        &mut Counted::new(small.as_mut_slice()),
        BUFFER.as_bytes(),
        b"",
    );
    assert!(rt; matches!(ended, Err(debug_session::Fault::WriteFailed)));
    assert!(rt; small.as_slice() == b"liv".as_slice());
    Ok(())
}

#[test]
fn each_refusal_has_its_number(rt: HostRuntime) {
    assert_eq!(rt; lexer::Fault::Memory.number(), 1);
    assert_eq!(rt; parser::Fault::Memory.number(), 1);
    assert_eq!(rt; types::Fault::Memory.number(), 1);
    assert_eq!(rt; elaborate::Fault::Memory.number(), 1);
    assert_eq!(rt; sharing_check::Fault::Memory.number(), 1);
    assert_eq!(rt; machine::Fault::Memory.number(), 1);
    assert_eq!(rt; locked_execution::Fault::Memory.number(), 1);
    assert_eq!(rt; branch_workers::Fault::Memory.number(), 1);
    assert_eq!(rt; debug_session::Fault::Memory.number(), 1);
    assert_eq!(rt; trace_file::Fault::Memory.number(), 1);
    for (refusal, number) in [
        (Refusal::Memory, 1),
        (Refusal::NotReady, 21),
        (Refusal::HistoryFull, 22),
        (Refusal::NoSuchEvent, 23),
        (Refusal::NeededBy(9), 24),
        (Refusal::NeverWritten, 25),
        (Refusal::Spent, 26),
        (Refusal::BreaksFull, 27),
        (Refusal::NoSuchLine, 28),
    ] {
        assert_eq!(rt; refusal.number(), number);
    }
    assert_eq!(rt; debug_session::Fault::ReadFailed.number(), 41);
    assert_eq!(rt; debug_session::Fault::WriteFailed.number(), 42);
    assert_eq!(rt; debug_session::Fault::BadCommand(1).number(), 61);
}
