//! What the public types are made of: each part of a token, a tree of syntax, an event, a record and a line is taken by a name of
//! the type that the reference says, so that another does not compile.

use crate::examples::{ARBITER, COUNTER, Example, FORK, HANDED_OVER, LOOP_OF_WRITES, TWO_SYNCS};
use crate::numbered::numbers_of;
use crate::told::place;
use address::{Address, Entry, read};
use calculus::{Ask, Choice, Event, Kind};
use debug_session::{Line, read_command};
use event_inverse::{Record, apply, invert};
use lexer::{Token, lex};
use locked_execution::Command;
use machine::Machine;
use parser::parse;
use process_tree::{Offer, Proc, Tree};
use rendezvous::event_at;
use sharing_check::Checked;
use std::alloc::{AllocError, Global};
use std::test::Fail;
use store::Store;
use syntax::{
    Action, Description, Expr, Items, LocalKind, Port, PortKind, Procedure, Shape, Span,
    TypeDefinition, TypeName,
};
use value::Value;

/// Source of the one-place buffer, in two lines.
const SOURCE: &[u8] = b"type byte is 8 bits\nprocedure buffer (input i : byte; output o : byte) is \
variable x : byte begin loop i -> x ; o <- x end end\n";

#[test]
fn a_token_is_taken_apart(rt: HostRuntime) -> Result<(), Fail> {
    let found: Result<Vec<Token<'_>>, lexer::Fault> = lex(rt.alloc(), b"x\n := 12");
    let told = [
        (lexer::Kind::Name, b"x".as_slice(), 0, 0, 1, 1),
        (lexer::Kind::AssignSign, b":=", 0, 3, 5, 2),
        (lexer::Kind::Number, b"12", 12, 6, 8, 2),
        (lexer::Kind::End, b"", 0, 8, 8, 2),
    ];
    let found = found?;
    assert_eq!(rt; found.len(), told.len());
    for (token, expected) in found.as_slice().iter().zip(told) {
        let kind: lexer::Kind = token.kind;
        let text: &[u8] = token.text.text();
        let number: u64 = token.number;
        let span: Span = token.span;
        let (start, stop, line): (u64, u64, u64) = (span.start, span.stop, span.line);
        assert!(rt; (kind, text, number, start, stop, line) == expected);
    }
    Ok(())
}

/// The name of the type, where it has one.
fn named(of: &TypeName) -> &[u8] {
    match of {
        TypeName::Named(identifier) => identifier.get().name.text(),
        TypeName::Bits(_) => b"",
    }
}

/// The first name of the ports and the name of their type, and whether they are inputs.
fn port_of(port: &Port) -> (&[u8], &[u8], bool) {
    let name = match port.names.get(0) {
        Some(identifier) => identifier.name.text(),
        None => b"",
    };
    match &port.kind {
        PortKind::Input(of) => (name, named(of), true),
        PortKind::Output(of) => (name, named(of), false),
        PortKind::Sync => (name, b"", false),
    }
}

#[test]
fn a_description_is_taken_apart(rt: HostRuntime) -> Result<(), Fail> {
    let tokens = lex(rt.alloc(), SOURCE)?;
    let parsed: Result<Description, parser::Fault> = parse(rt.alloc(), tokens.as_slice());
    let description = parsed?;
    let declared = description.types.get(0).ok_or("a type")?;
    assert!(rt; declared.name.name.text() == b"byte".as_slice());
    assert!(rt; matches!(&declared.definition, TypeDefinition::Bits(width) if width.bits == 8));
    let procedure: &Procedure = description.procedures.get(0).ok_or("a procedure")?;
    assert!(rt; procedure.name.name.text() == b"buffer".as_slice());
    let ports: &[Port] = procedure.ports.as_slice();
    assert_eq!(rt; ports.len(), 2);
    assert!(rt; port_of(&ports[0]) == (b"i".as_slice(), b"byte".as_slice(), true));
    assert!(rt; port_of(&ports[1]) == (b"o".as_slice(), b"byte".as_slice(), false));
    let local = procedure.locals.get(0).ok_or("a local")?;
    assert!(rt; matches!(&local.kind, LocalKind::Variable(of) if named(of) == b"byte".as_slice()));
    let body: &syntax::Command = &procedure.body;
    assert_eq!(rt; body.span.line, 2);
    let Action::Loop(turn) = body.action.get() else {
        return Err(Fail::from("a loop"));
    };
    let Action::Sequence(children) = turn.action.get() else {
        return Err(Fail::from("a sequence"));
    };
    let children: &Items<syntax::Command> = children;
    assert_eq!(rt; children.len(), 2);
    let Some(Action::Send(channel, sent)) = children.get(1).map(|child| child.action.get()) else {
        return Err(Fail::from("a send"));
    };
    let sent: &Expr = sent;
    assert!(rt; channel.name.text() == b"o".as_slice());
    assert!(rt; matches!(sent.shape.get(), Shape::Name(name) if name.text() == b"x".as_slice()));
    Ok(())
}

#[test]
fn a_place_is_a_list_of_entries(rt: HostRuntime) -> Result<(), Fail> {
    let entries = [Entry::Branch(0), Entry::Ordered(1), Entry::Ordered(0)];
    let made: Result<Address, AllocError> = Address::new(rt.alloc(), &entries);
    let read: Option<Address> = read(rt.alloc(), b"/0.1.0")?;
    assert!(rt; made?.equals(&read.ok_or("a place")?));
    Ok(())
}

/// The events behind one another at these places of the example, each with arm 0.
fn taken(alloc: Global, example: Example, places: &[&[u8]]) -> Result<Vec<Event>, Fail> {
    let mut machine = Machine::new(alloc, example.checked(alloc)?)?;
    let mut events = Vec::new(alloc);
    for at in places {
        let choice = Choice {
            place: place(alloc, at)?,
            arm: 0,
        };
        let (_ticket, event) = machine.step(&choice)?;
        events.push(event)?;
    }
    Ok(events)
}

/// The kind in a word.
fn word(kind: Kind) -> &'static str {
    match kind {
        Kind::Assign => "assign",
        Kind::Test => "test",
        Kind::Turn => "turn",
        Kind::Meet => "meet",
        Kind::Open => "open",
        Kind::Close => "close",
        Kind::Sync => "sync",
    }
}

#[test]
fn an_event_of_each_kind_is_taken_apart(rt: HostRuntime) -> Result<(), Fail> {
    let alloc = rt.alloc();
    let found = taken(alloc, HANDED_OVER, &[b"/0/1.0".as_slice(), b"/0/0"])?;
    let (assign, meet): (&Event, &Event) = (&found[0], &found[1]);
    let value: Option<Value> = assign.value;
    let written: Option<u32> = assign.written;
    assert!(rt; word(assign.kind) == "assign" && value == Value::new(3, 8) && written == Some(1));
    let first: &Address = &meet.first;
    let second: &Option<Address> = &meet.second;
    assert!(rt; first.equals(&place(alloc, b"/0/1.1.0")?));
    assert!(rt;
        second
            .as_ref()
            .ok_or("a second place")?
            .equals(&place(alloc, b"/0/0")?)
    );
    let channel: Option<u32> = meet.channel;
    let read: &[u32] = meet.read.as_slice();
    assert!(rt; word(meet.kind) == "meet" && channel == Some(0) && read == [1].as_slice());
    assert!(rt; meet.written == Some(0) && meet.value == Value::new(3, 8));
    let found = taken(alloc, COUNTER, &[b"/0.0".as_slice()])?;
    let arm: Option<u32> = found[0].arm;
    assert!(rt; word(found[0].kind) == "test" && arm == Some(0));
    let found = taken(alloc, LOOP_OF_WRITES, &[b"/0.0".as_slice()])?;
    assert!(rt; word(found[0].kind) == "turn" && found[0].second.is_none());
    let found = taken(
        alloc,
        FORK,
        &[b"/0.0.0".as_slice(), b"/2.0", b"/3.0", b"/0.0.2"],
    )?;
    assert!(rt; word(found[0].kind) == "open" && found[0].value == Value::new(5, 8));
    assert!(rt; word(found[3].kind) == "close" && found[3].value.is_none());
    let found = taken(alloc, TWO_SYNCS, &[b"/0/0.0".as_slice()])?;
    assert!(rt; word(found[0].kind) == "sync" && found[0].arm.is_none());
    Ok(())
}

#[test]
fn a_choice_has_the_arm(rt: HostRuntime) -> Result<(), Fail> {
    let mut machine = Machine::new(rt.alloc(), ARBITER.checked(rt.alloc())?)?;
    let choice = Choice {
        place: place(rt.alloc(), b"/0.0")?,
        arm: 1,
    };
    let (_ticket, event) = machine.step(&choice)?;
    let copy: Result<Choice, AllocError> = event.choice(rt.alloc());
    let copy = copy?;
    let (at, arm): (&Address, u32) = (&copy.place, copy.arm);
    assert!(rt; at.equals(&choice.place) && arm == 1);
    Ok(())
}

/// Makes the move of the tree that is asked for at the place, and gives what it took out.
fn move_on(alloc: Global, tree: &mut Tree, at: &[u8], ask: Ask) -> Result<Option<Box<Proc>>, Fail> {
    let at = place(alloc, at)?;
    let out: Result<Option<Box<Proc>>, AllocError> = tree.advance(alloc, at.entries(), ask);
    Ok(out?)
}

#[test]
fn a_tree_moves_and_goes_back(rt: HostRuntime) -> Result<(), Fail> {
    let alloc = rt.alloc();
    let checked: Checked = LOOP_OF_WRITES.checked(alloc)?;
    let mut tree: Tree = Tree::new(alloc, checked.system())?;
    assert!(rt; move_on(alloc, &mut tree, b"/0.0", Ask::Turn)?.is_none());
    assert!(rt; move_on(alloc, &mut tree, b"/0.1.0", Ask::Assign)?.is_none());
    assert!(rt; move_on(alloc, &mut tree, b"/0.1.1", Ask::Assign)?.is_none());
    let root: &Proc = tree.root();
    let before = numbers_of(alloc, root)?;
    let out = move_on(alloc, &mut tree, b"/0.2", Ask::Turn)?;
    assert!(rt; out.is_some());
    let ready: Result<Items<Offer>, AllocError> = tree.ready(alloc);
    let ready = ready?;
    assert_eq!(rt; ready.len(), 1);
    let offer: &Offer = ready.get(0).ok_or("an offer")?;
    assert!(rt; offer.place.equals(&place(alloc, b"/0.3.0")?));
    tree.retreat(place(alloc, b"/0.2")?.entries(), out);
    assert!(rt; numbers_of(alloc, tree.root())?.as_slice() == before.as_slice());
    Ok(())
}

#[test]
fn a_record_takes_its_event_back(rt: HostRuntime) -> Result<(), Fail> {
    let alloc = rt.alloc();
    let checked = COUNTER.checked(alloc)?;
    let mut tree = Tree::new(alloc, checked.system())?;
    let mut store = Store::new(alloc, checked.system())?;
    let before = numbers_of(alloc, tree.root())?;
    let mut records: Vec<Record> = Vec::new(alloc);
    for at in [b"/0.0".as_slice(), b"/0.1", b"/0.2"] {
        let choice = Choice {
            place: place(alloc, at)?,
            arm: 0,
        };
        let event = event_at(alloc, &tree, &store, &choice)?.ok_or("an event")?;
        records.push(apply(alloc, &mut tree, &mut store, event)?)?;
    }
    assert!(rt; store.get(0) == Value::make(1, 8));
    while let Some(record) = records.pop() {
        let kind = record.event.kind;
        let event: Event = invert(&mut tree, &mut store, record);
        assert!(rt; event.kind == kind);
    }
    assert!(rt; store.get(0) == Value::zero(8));
    assert!(rt; numbers_of(alloc, tree.root())?.as_slice() == before.as_slice());
    Ok(())
}

/// What a line asks for, in a word, and for which number.
fn asked(line: &Line) -> (&'static str, u64) {
    match line {
        Line::Asked(Command::Step(choice)) => ("step", u64::from(choice.arm)),
        Line::Asked(Command::Undo(ticket)) => ("undo", *ticket),
        Line::Asked(Command::Roll(ticket)) => ("roll", *ticket),
        Line::Asked(Command::RollValue(variable)) => ("rollvalue", u64::from(*variable)),
        Line::Asked(Command::Blame(variable)) => ("blame", u64::from(*variable)),
        Line::Asked(Command::Ready) => ("ready", 0),
        Line::Asked(Command::Consequences(ticket)) => ("consequences", *ticket),
        Line::Asked(Command::Live) => ("live", 0),
        Line::Asked(Command::Value(variable)) => ("value", u64::from(*variable)),
        Line::Asked(Command::Branch(number)) => ("branch", u64::from(*number)),
        Line::Asked(Command::Break(line)) => ("break", *line),
        Line::Asked(Command::Clear(line)) => ("clear", *line),
        Line::Session(number) => ("session", u64::from(*number)),
        Line::View => ("view", 0),
        Line::Trace => ("trace", 0),
        Line::Empty => ("", 0),
    }
}

#[test]
fn each_line_is_read(rt: HostRuntime) -> Result<(), Fail> {
    let checked = COUNTER.checked(rt.alloc())?;
    let lines = [
        (b"step /0.0 1".as_slice(), "step", 1),
        (b"undo 3", "undo", 3),
        (b"roll 4", "roll", 4),
        (b"rollvalue x", "rollvalue", 0),
        (b"blame x", "blame", 0),
        (b"ready", "ready", 0),
        (b"consequences 5", "consequences", 5),
        (b"live", "live", 0),
        (b"value x", "value", 0),
        (b"branch 6", "branch", 6),
        (b"break 7", "break", 7),
        (b"clear 8", "clear", 8),
        (b"session 9", "session", 9),
        (b"view", "view", 0),
        (b"trace", "trace", 0),
        (b"", "", 0),
    ];
    for (text, word, number) in lines {
        let read: Result<Line, debug_session::Fault> = read_command(rt.alloc(), &checked, text, 1);
        assert!(rt; asked(&read?) == (word, number), "{word}");
    }
    Ok(())
}
