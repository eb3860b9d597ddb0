//! A client of the front end and of the parts of a step. It was written from what is said of the calls, by someone who had
//! not seen a body, and calls each of them. Events, and the machine and what stands above it, are in
//! `from_the_specification_events`.

use address::{Address, Entry, before};
use calculus::{Choice, Event, Kind};
use elaborate::{Stimulus, System, elaborate};
use event_inverse::{Record, apply, invert};
use lexer::{Kind as TokenKind, Token, lex};
use parser::parse;
use process_tree::{Offer, Proc, Tree};
use rendezvous::{event_at, ready_events};
use runs::Ask;
use sharing_check::{Checked, check_sharing};
use std::alloc::Global;
use std::cmp::Ordering;
use std::test::Fail;
use store::Store;
use syntax::{Action, Command, Description, Expr, LocalKind, Procedure, Shape, Span, TypeName};
use types::{Typed, check_types};
use value::{Comparison, Value, add, bit_and, bit_or, bit_xor, not, resize, sub};

/// The source of the worked example of a buffer.
pub const BUFFER: &str = "type byte is 8 bits
procedure buffer (input i : byte; output o : byte) is variable x : byte begin loop i -> x ; o <- x end end
";

/// The source of the worked example of two buffers, one behind the other.
pub const TWO_BUFFERS: &str = "type byte is 8 bits
procedure buffer (input i : byte; output o : byte) is variable x : byte begin loop i -> x ; o <- x end end
procedure two (input i : byte; output o : byte) is channel c : byte begin buffer (i, c) || buffer (c, o) end
";

/// The stimulus of both.
pub const FED: &str = "i = 5 7";

/// The source of the worked example of an arbiter.
pub const ARBITER: &str =
    "type byte is 8 bits procedure arb (input a, b : byte; output o : byte) is \
     begin arbitrate a then o <- a | b then o <- b end end";

/// The stimulus of the arbiter and of the `select`.
pub const BOTH: &str = "a = 5\nb = 7\n";

/// The address with this text.
pub fn place(alloc: Global, text: &str) -> Result<Address, Fail> {
    Ok(address::read(alloc, text.as_bytes())?.ok_or("no address has this text")?)
}

/// The choice of arm 0 at this place.
pub fn choice(alloc: Global, text: &str) -> Result<Choice, Fail> {
    Ok(Choice {
        place: place(alloc, text)?,
        arm: 0,
    })
}

/// The types of a source, found by the calls in their order.
fn typed(alloc: Global, source: &str) -> Result<Typed, Fail> {
    let tokens = lex(alloc, source.as_bytes())?;
    let description = parse(alloc, tokens.as_slice())?;
    Ok(check_types(alloc, &description)?)
}

/// The system of a source and a stimulus, by the calls in their order.
pub fn system(alloc: Global, source: &str, stimulus: &str) -> Result<System, Fail> {
    let typed = typed(alloc, source)?;
    let stimulus = Stimulus::read(alloc, stimulus.as_bytes())?;
    Ok(elaborate(alloc, &typed, &stimulus)?)
}

/// A system that keeps the sharing rule.
pub fn checked(alloc: Global, source: &str, stimulus: &str) -> Result<Checked, Fail> {
    Ok(check_sharing(alloc, system(alloc, source, stimulus)?)?)
}

/// A number of so many bits.
pub fn word(bits: u64, width: u8) -> Value {
    Value { bits, width }
}

#[test]
fn numbers_are_kept_in_their_width(rt: HostRuntime) {
    let one = word(1, 1);
    assert_eq!(rt; add(word(255, 8), one), word(256, 9));
    assert_eq!(rt; add(word(u64::MAX / 2, 63), word(1, 63)), word(1 << 63, 64));
    assert_eq!(rt; sub(word(0, 1), one), one);
    assert_eq!(rt; sub(word(200, 8), word(201, 8)), word(255, 8));
    assert_eq!(rt; bit_and(word(12, 4), word(5, 3)), word(4, 4));
    assert_eq!(rt; bit_or(word(12, 4), word(5, 3)), word(13, 4));
    assert_eq!(rt; bit_xor(word(5, 3), word(12, 4)), word(9, 4));
    assert_eq!(rt; not(word(1, 2)), word(2, 2));
    assert_eq!(rt; not(word(0, 64)), word(u64::MAX, 64));
    assert_eq!(rt; resize(word(256, 9), 8), word(0, 8));
    assert_eq!(rt; resize(word(3, 2), 64), word(3, 64));
    for (op, of_less, of_same, of_more) in [
        (Comparison::Equal, 0, 1, 0),
        (Comparison::NotEqual, 1, 0, 1),
        (Comparison::Less, 1, 0, 0),
        (Comparison::Greater, 0, 0, 1),
        (Comparison::LessOrEqual, 1, 1, 0),
        (Comparison::GreaterOrEqual, 0, 1, 1),
    ] {
        assert_eq!(rt;
            value::compare(op, word(1, 1), word(200, 8)),
            word(of_less, 1)
        );
        assert_eq!(rt;
            value::compare(op, word(7, 3), word(7, 64)),
            word(of_same, 1)
        );
        assert_eq!(rt;
            value::compare(op, word(255, 8), word(1, 2)),
            word(of_more, 1)
        );
    }
}

#[test]
fn places_have_two_orders_and_one_text(rt: HostRuntime) -> Result<(), Fail> {
    let alloc = rt.alloc();
    // Only at ordered numbers is one place before another. A proper beginning is before nothing, but comes first.
    for (a, b, earlier, order) in [
        ("/0.1.0", "/0.2", true, Ordering::Less),
        ("/0.2", "/0.1.0", false, Ordering::Greater),
        ("/0/0.9", "/0/1.0", false, Ordering::Less),
        ("/0.5", "/0/0", false, Ordering::Less),
        ("/0.1", "/0.1.0", false, Ordering::Less),
        ("/0.1", "/0.1", false, Ordering::Equal),
        ("/0.10", "/0.9", false, Ordering::Greater),
    ] {
        let (a, b) = (place(alloc, a)?, place(alloc, b)?);
        assert_eq!(rt; before(&a, &b), earlier);
        assert!(rt; address::compare(&a, &b) == order);
        assert!(rt; address::compare(&b, &a) == order.reverse());
    }
    for text in [
        "/00",
        ".01",
        "/4294967296",
        "0",
        "/",
        "/0.",
        "/-1",
        "/0 ",
        "/0//1",
        "/+1",
    ] {
        assert!(rt; address::read(alloc, text.as_bytes())?.is_none(), "{text}");
    }
    for text in ["", "/0", ".0", "/4294967295", "/0.1.0"] {
        assert!(rt; address::read(alloc, text.as_bytes())?.is_some(), "{text}");
    }
    let read = place(alloc, "/0.1.0")?;
    let entries = [Entry::Branch(0), Entry::Ordered(1), Entry::Ordered(0)];
    assert!(rt; read.entries() == entries.as_slice());
    assert!(rt; address::compare(&read.copy(alloc)?, &read) == Ordering::Equal);
    Ok(())
}

#[test]
fn trees_are_built_and_parsed(rt: HostRuntime) -> Result<(), Fail> {
    let alloc = rt.alloc();
    let span = Span {
        start: 21,
        stop: 25,
        line: 1,
    };
    let number: Expr = Expr::new(alloc, span, Shape::Number(7))?;
    let command: Command = Command::new(alloc, span, Action::Halt)?;
    assert_eq!(rt; (number.span, command.span), (span, span));
    let tokens = lex(
        alloc,
        b"type n is 3 bits procedure p is variable x : n begin halt end",
    )?;
    let description: Description = parse(alloc, tokens.as_slice())?;
    let procedure: &Procedure = description
        .procedures
        .as_slice()
        .last()
        .ok_or("no procedure")?;
    let local = procedure.locals.as_slice().first().ok_or("no local")?;
    let LocalKind::Variable(named) = &local.kind else {
        return Err(Fail::new("another local"));
    };
    let named: &TypeName = named;
    assert!(rt; matches!(named, TypeName::Named(_)));
    assert_eq!(rt; procedure.body.span.start, 53);
    Ok(())
}

#[test]
fn tokens_are_the_longest_and_end_at_the_end(rt: HostRuntime) -> Result<(), Fail> {
    let alloc = rt.alloc();
    let source = b"is isn (-- a (-- b --) --)c:=x--end\n  17<-\t->||";
    let tokens = lex(alloc, source)?;
    let texts = ["is", "isn", "c", ":=", "x", "17", "<-", "->", "||", ""];
    assert_eq!(rt; tokens.len(), texts.len());
    let mut behind = 0;
    for (token, text) in tokens.iter().zip(texts) {
        let span: Span = token.span;
        assert!(rt; token.text.text() == text.as_bytes());
        assert!(rt; &source[span.start as usize..span.stop as usize] == text.as_bytes());
        assert!(rt; behind <= span.start);
        behind = span.stop;
    }
    let last: &Token = tokens.last().ok_or("no token")?;
    assert!(rt; matches!(last.kind, TokenKind::End));
    assert_eq!(rt; (last.span.start, last.span.line), (source.len() as u64, 2));
    Ok(())
}

#[test]
fn the_lexer_refuses_the_first_byte_at_fault(rt: HostRuntime) -> Result<(), Fail> {
    use lexer::Fault::{BadCharacter, NumberTooLarge, OpenComment};
    let alloc = rt.alloc();
    for (source, fault, number) in [
        ("procedure p @", BadCharacter(12), 2),
        ("(-- (-- --)", OpenComment(0), 3),
        ("(--)", OpenComment(0), 3),
        ("x 18446744073709551616 @", NumberTooLarge(2), 4),
        ("x @ 18446744073709551616", BadCharacter(2), 2),
    ] {
        assert_eq!(rt; fault.number(), number);
        assert!(rt;
            matches!(lex(alloc, source.as_bytes()), Err(found) if found == fault),
            "{source}"
        );
    }
    assert!(rt; lex(alloc, b"18446744073709551615 (--)--)").is_ok());
    Ok(())
}

#[test]
fn the_parser_refuses_the_first_token_at_fault(rt: HostRuntime) -> Result<(), Fail> {
    use parser::Fault::{TooDeep, Unexpected};
    let alloc = rt.alloc();
    let mut deep = String::from_str(alloc, "procedure p is begin ")?;
    for _ in 0..65 {
        deep.push_str("[")?;
    }
    for (source, fault, number) in [
        ("", Unexpected(0), 5),
        ("procedure p is begin halt || end", Unexpected(29), 5),
        ("(--)--)", Unexpected(7), 5),
        (&BUFFER[..109], Unexpected(109), 5),
        (
            "procedure p is shared channel c : 8 bits begin halt end",
            Unexpected(22),
            5,
        ),
        (deep.as_str(), TooDeep(85), 6),
    ] {
        let tokens = lex(alloc, source.as_bytes())?;
        assert_eq!(rt; fault.number(), number);
        assert!(rt;
            matches!(parse(alloc, tokens.as_slice()), Err(found) if found == fault),
            "{source}"
        );
    }
    Ok(())
}

#[test]
fn so_many_levels_are_open_at_once(rt: HostRuntime) -> Result<(), Fail> {
    let alloc = rt.alloc();
    let mut source = String::from_str(alloc, "procedure p is begin ")?;
    for _ in 0..64 {
        source.push_str("[")?;
    }
    source.push_str("continue")?;
    for _ in 0..64 {
        source.push_str("]")?;
    }
    source.push_str(" end")?;
    // Brackets make no node: the body is the command within.
    let checked = checked(alloc, source.as_str(), "")?;
    assert_eq!(rt; checked.branches(), 1);
    Ok(())
}

#[test]
fn the_parser_needs_no_end_and_reads_nothing_behind_one(rt: HostRuntime) -> Result<(), Fail> {
    let alloc = rt.alloc();
    let mut tokens = lex(alloc, b"procedure p is begin halt end")?;
    let behind = lex(alloc, b"; ; ;")?;
    for token in behind {
        tokens.push(token)?;
    }
    assert_eq!(rt; tokens.len(), 11);
    assert!(rt; parse(alloc, tokens.as_slice()).is_ok());
    assert!(rt; parse(alloc, &tokens.as_slice()[..6]).is_ok());
    let cut = parse(alloc, &tokens.as_slice()[..5]);
    assert!(rt; matches!(cut, Err(parser::Fault::Unexpected(25))));
    assert!(rt; matches!(parse(alloc, &[]), Err(parser::Fault::Unexpected(0))));
    Ok(())
}

/// Sources that are not well typed, with their refusal and its number.
const ILL_TYPED: [(&str, types::Fault, u32); 10] = [
    (
        "procedure p is begin q () end",
        types::Fault::UnknownName(21),
        7,
    ),
    (
        "procedure p is begin if 2 then zz := 1 end end",
        types::Fault::UnknownName(31),
        7,
    ),
    (
        "procedure p is variable x, x : 8 bits begin halt end",
        types::Fault::NameTwice(27),
        8,
    ),
    (
        "procedure p (input i : 8 bits) is begin i <- 1 end",
        types::Fault::WrongKind(40),
        9,
    ),
    (
        "procedure p is variable x : 8 bits begin x := 255 + 1 end",
        types::Fault::TooWide(46),
        10,
    ),
    (
        "procedure p is variable x : 65 bits begin halt end",
        types::Fault::TooWide(28),
        10,
    ),
    (
        "procedure p is begin if 2 then halt end end",
        types::Fault::GuardNotOneBit(24),
        11,
    ),
    (
        "procedure p is begin case 1 of 0 then halt | 0 then halt end end",
        types::Fault::BadArm(45),
        12,
    ),
    (
        "procedure q (sync s) is begin sync s end procedure p is begin q () end",
        types::Fault::PortMismatch(62),
        13,
    ),
    (
        "procedure p (input i : 8 bits) is variable x : 8 bits begin i -> then i -> x end end",
        types::Fault::EnclosedTwice(70),
        17,
    ),
];

#[test]
fn types_refuse_the_least_byte_at_fault(rt: HostRuntime) -> Result<(), Fail> {
    let alloc = rt.alloc();
    for (source, fault, number) in ILL_TYPED {
        let tokens = lex(alloc, source.as_bytes())?;
        let description = parse(alloc, tokens.as_slice())?;
        assert_eq!(rt; fault.number(), number);
        let refused = check_types(alloc, &description);
        assert!(rt; matches!(refused, Err(found) if found == fault), "{source}");
    }
    let _typed: Typed = typed(alloc, BUFFER)?;
    Ok(())
}

#[test]
fn stimuli_are_read_and_then_fitted_to_the_ports(rt: HostRuntime) -> Result<(), Fail> {
    use elaborate::Fault::BadStimulus;
    let alloc = rt.alloc();
    assert_eq!(rt; BadStimulus(1).number(), 51);
    for (text, line) in [
        ("i = 5 ", 1),
        ("i =  5", 1),
        ("i = 05", 1),
        ("i = 18446744073709551616", 1),
        ("i = 5\n\nx", 3),
        ("s * 65537", 1),
        ("loop = 5", 1),
        (" \n", 1),
    ] {
        assert!(rt;
            matches!(Stimulus::read(alloc, text.as_bytes()), Err(BadStimulus(found)) if found == line),
            "{text}"
        );
    }
    let typed = typed(alloc, BUFFER)?;
    for (text, line) in [
        ("i = 256", 1),
        ("o = 5", 1),
        ("\n\nx = 1", 3),
        ("i = 1\ni = 2", 2),
        ("i * 3", 1),
    ] {
        let stimulus = Stimulus::read(alloc, text.as_bytes())?;
        assert!(rt;
            matches!(elaborate(alloc, &typed, &stimulus), Err(BadStimulus(found)) if found == line),
            "{text}"
        );
    }
    for text in ["", "i =", "\ni = 255 0\n", "s * 65536\n"] {
        assert!(rt; Stimulus::read(alloc, text.as_bytes()).is_ok(), "{text}");
    }
    Ok(())
}

#[test]
fn systems_have_a_size(rt: HostRuntime) -> Result<(), Fail> {
    use elaborate::Fault::{BadStimulus, TooManyNodes};
    let alloc = rt.alloc();
    assert_eq!(rt; TooManyNodes.number(), 14);
    let mut source = String::from_str(alloc, "procedure p is begin continue")?;
    for _ in 1..16_383 {
        source.push_str(" ; continue")?;
    }
    let none = Stimulus::read(alloc, b"")?;
    let whole = format!(in alloc; "{source} end")?;
    assert!(rt; elaborate(alloc, &typed(alloc, whole.as_str())?, &none).is_ok());
    let typed_more = typed(
        alloc,
        format!(in alloc; "{source} ; continue end")?.as_str(),
    )?;
    assert!(rt; matches!(elaborate(alloc, &typed_more, &none), Err(TooManyNodes)));
    // A stimulus that does not fit goes first.
    let other = Stimulus::read(alloc, b"i = 1")?;
    assert!(rt; matches!(elaborate(alloc, &typed_more, &other), Err(BadStimulus(1))));
    Ok(())
}

#[test]
fn commands_stand_in_so_many_others(rt: HostRuntime) -> Result<(), Fail> {
    let alloc = rt.alloc();
    let none = Stimulus::read(alloc, b"")?;
    // Sixteen procedures of 64 loops each, and one more loop around them.
    let mut deep = String::new(alloc);
    for k in 0..16 {
        deep.push_str(format!(in alloc; "procedure q{k} is begin ")?.as_str())?;
        for _ in 0..64 {
            deep.push_str("loop ")?;
        }
        match k {
            0 => deep.push_str("continue")?,
            _ => deep.push_str(format!(in alloc; "q{} ()", k - 1)?.as_str())?,
        }
        for _ in 0..65 {
            deep.push_str(" end")?;
        }
        deep.push_str("\n")?;
    }
    assert!(rt; elaborate(alloc, &typed(alloc, deep.as_str())?, &none).is_ok());
    deep.push_str("procedure p is begin loop q15 () end end")?;
    assert!(rt;
        matches!(
            elaborate(alloc, &typed(alloc, deep.as_str())?, &none),
            Err(elaborate::Fault::TooManyNodes)
        )
    );
    Ok(())
}

#[test]
fn sharing_is_refused_at_its_least_byte(rt: HostRuntime) -> Result<(), Fail> {
    use sharing_check::Fault::{SharedChannel, SharedVariable};
    let alloc = rt.alloc();
    for (source, fault, number) in [
        (
            "procedure p is variable x, y : 8 bits begin x := 1 || y := x end",
            SharedVariable(44),
            15,
        ),
        (
            "procedure p is sync s begin sync s || sync s || sync s end",
            SharedChannel(20),
            16,
        ),
        (
            "procedure p is sync s variable x : 8 bits begin [sync s || sync s || sync s] || x := 1 || x := 2 end",
            SharedVariable(80),
            15,
        ),
        (
            "procedure p is shared variable x : 8 bits variable y : 8 bits begin [x := 1 ; y := 2] || y := x end",
            SharedVariable(78),
            15,
        ),
    ] {
        assert_eq!(rt; fault.number(), number);
        let refused = check_sharing(alloc, system(alloc, source, "")?);
        assert!(rt; matches!(refused, Err(found) if found == fault), "{source}");
    }
    let shared =
        "procedure p is shared variable x : 8 bits variable y : 8 bits begin x := 1 || y := x end";
    for source in [shared, "procedure p is sync s begin sync s || sync s end"] {
        assert!(rt;
            check_sharing(alloc, system(alloc, source, "")?).is_ok(),
            "{source}"
        );
    }
    Ok(())
}

#[test]
fn a_checked_system_tells_names_lines_and_branches(rt: HostRuntime) -> Result<(), Fail> {
    let alloc = rt.alloc();
    let checked = checked(alloc, TWO_BUFFERS, FED)?;
    let copy: Checked = checked.clone()?;
    assert_eq!(rt; (checked.branches(), copy.branches()), (4, 4));
    let first = checked.variable(b"1:x").ok_or("no variable")?;
    let second = checked.variable(b"2:x").ok_or("no variable")?;
    assert_ne!(rt; first, second);
    assert!(rt; checked.variable(b"x").is_none());
    assert!(rt;
        checked
            .variable_name(first)
            .is_some_and(|name| name.is(b"1:x"))
    );
    assert!(rt;
        checked
            .variable_name(second)
            .is_some_and(|name| name.is(b"2:x"))
    );
    assert!(rt; checked.variable_name(2).is_none());
    for name in [b"i", b"o", b"c"] {
        assert!(rt; (0..3).any(|k| checked.channel_name(k).is_some_and(|known| known.is(name))));
    }
    assert!(rt; checked.channel_name(3).is_none());
    for (text, line, branch) in [
        ("/0/0.0", Some(2), Some(0)),
        ("/0/0.8", Some(2), Some(0)),
        ("/0/1.1.0", Some(2), Some(1)),
        ("/0/2.0", None, None),
        ("/1.0", None, Some(2)),
        ("/2.0", None, Some(3)),
        ("/3.0", None, None),
    ] {
        let at = place(alloc, text)?;
        assert_eq!(rt;
            (checked.line(&at), checked.branch(&at)),
            (line, branch),
            "{text}"
        );
        assert!(rt; !checked.select(&at), "{text}");
    }
    // The parallel begins on line 3, by the first of its calls.
    for (line, begins) in [(0, false), (1, false), (2, true), (3, true), (4, false)] {
        assert_eq!(rt; checked.begins(line), begins, "{line}");
    }
    Ok(())
}

#[test]
fn an_arbiter_is_no_select(rt: HostRuntime) -> Result<(), Fail> {
    let alloc = rt.alloc();
    let chosen = ARBITER.find("arbitrate").ok_or("no arbiter")?;
    let select = format!(in alloc; "{}select{}", &ARBITER[..chosen], &ARBITER[chosen + 9..])?;
    let (open, arm) = (place(alloc, "/0.0")?, place(alloc, "/0.1.0")?);
    let selecting = checked(alloc, select.as_str(), BOTH)?;
    assert!(rt; selecting.select(&open));
    assert!(rt; !selecting.select(&arm));
    assert!(rt; !checked(alloc, ARBITER, BOTH)?.select(&open));
    Ok(())
}

#[test]
fn a_store_gives_back_what_it_replaces(rt: HostRuntime) -> Result<(), Fail> {
    let alloc = rt.alloc();
    let mut store = Store::new(alloc, &system(alloc, TWO_BUFFERS, FED)?)?;
    assert_eq!(rt; (store.get(0), store.get(1)), (word(0, 8), word(0, 8)));
    assert_eq!(rt; store.put(1, word(5, 8)), word(0, 8));
    assert_eq!(rt; store.put(1, word(7, 8)), word(5, 8));
    assert_eq!(rt; (store.get(0), store.get(1)), (word(0, 8), word(7, 8)));
    Ok(())
}

/// Whether the tree offers a move there.
fn offers(alloc: Global, tree: &Tree, at: &Address) -> Result<bool, Fail> {
    let offered = tree.ready(alloc)?;
    Ok(offered.as_slice().iter().any(|offer| address::compare(&offer.place, at) == Ordering::Equal))
}

#[test]
fn a_tree_goes_on_and_back(rt: HostRuntime) -> Result<(), Fail> {
    let alloc = rt.alloc();
    let system = system(alloc, "procedure p is begin loop continue end end", "")?;
    let mut tree = Tree::new(alloc, &system)?;
    let mut behind: Vec<(Address, Option<Box<Proc>>)> = Vec::new(alloc);
    for turn in ["/0.0", "/0.2", "/0.4"] {
        let at = place(alloc, turn)?;
        assert!(rt; offers(alloc, &tree, &at)?, "{turn}");
        let finished = tree.advance(alloc, at.entries(), Ask::Turn)?;
        assert!(rt; !offers(alloc, &tree, &at)?, "{turn}");
        // A turn takes the finished body of the turn before it out of the tree.
        assert_eq!(rt; finished.is_some(), turn != "/0.0", "{turn}");
        behind.push((at, finished))?;
    }
    while let Some((at, finished)) = behind.pop() {
        tree.retreat(at.entries(), finished);
        assert!(rt; offers(alloc, &tree, &at)?);
    }
    let offered: Vec<Offer> = tree.ready(alloc)?.into_vec();
    assert_eq!(rt; offered.len(), 1);
    Ok(())
}

#[test]
fn ready_events_are_in_order_of_place_and_arm(rt: HostRuntime) -> Result<(), Fail> {
    let alloc = rt.alloc();
    let system = system(alloc, ARBITER, BOTH)?;
    let (tree, store) = (Tree::new(alloc, &system)?, Store::new(alloc, &system)?);
    let ready: Vec<Event> = ready_events(alloc, &tree, &store)?;
    assert_eq!(rt; ready.len(), 2);
    let acting = place(alloc, "/0.0")?;
    for (arm, event) in ready.iter().enumerate() {
        let choice = event.choice(alloc)?;
        assert_eq!(rt; choice.arm as usize, arm);
        assert!(rt; address::compare(&choice.place, &acting) == Ordering::Equal);
        let found = event_at(alloc, &tree, &store, &choice)?.ok_or("not ready")?;
        assert_eq!(rt; (found.value, found.arm), (event.value, event.arm));
    }
    assert_eq!(rt;
        ready.first().and_then(|event| event.value),
        Some(word(5, 8))
    );
    assert_eq!(rt;
        ready.last().and_then(|event| event.value),
        Some(word(7, 8))
    );
    let third = Choice {
        place: acting,
        arm: 2,
    };
    assert!(rt; event_at(alloc, &tree, &store, &third)?.is_none());
    assert!(rt; event_at(alloc, &tree, &store, &choice(alloc, "/1.0.0")?)?.is_none());
    Ok(())
}

/// Takes the event at this place, arm 0, on tree and store.
fn applied(alloc: Global, tree: &mut Tree, store: &mut Store, text: &str) -> Result<Record, Fail> {
    let event = event_at(alloc, tree, store, &choice(alloc, text)?)?.ok_or("not ready")?;
    Ok(apply(alloc, tree, store, event)?)
}

/// Whether an event is ready at this place, arm 0.
fn is_ready(alloc: Global, tree: &Tree, store: &Store, text: &str) -> Result<bool, Fail> {
    Ok(event_at(alloc, tree, store, &choice(alloc, text)?)?.is_some())
}

#[test]
fn an_inverse_gives_back_tree_and_store(rt: HostRuntime) -> Result<(), Fail> {
    let alloc = rt.alloc();
    let system = system(alloc, BUFFER, FED)?;
    let (mut tree, mut store) = (Tree::new(alloc, &system)?, Store::new(alloc, &system)?);
    let steps = ["/0.0", "/0.1.0", "/2.0", "/0.2", "/0.3.0"];
    let values = [0, 0, 5, 5, 5];
    let mut records: Vec<(usize, Record)> = Vec::new(alloc);
    for (at, step) in steps.iter().enumerate() {
        assert_eq!(rt; store.get(0).bits, values[at]);
        records.push((at, applied(alloc, &mut tree, &mut store, step)?))?;
    }
    assert_eq!(rt; store.get(0).bits, 7);
    while let Some((at, record)) = records.pop() {
        let event: Event = invert(&mut tree, &mut store, record);
        let acting = event.choice(alloc)?.place;
        assert!(rt; address::compare(&acting, &place(alloc, steps[at])?) == Ordering::Equal);
        assert_eq!(rt; store.get(0).bits, values[at]);
        assert_eq!(rt; ready_events(alloc, &tree, &store)?.len(), 1);
        assert!(rt; is_ready(alloc, &tree, &store, steps[at])?);
    }
    Ok(())
}

#[test]
fn an_older_event_is_inverted_before_one_apart_from_it(rt: HostRuntime) -> Result<(), Fail> {
    let alloc = rt.alloc();
    let system = system(alloc, TWO_BUFFERS, FED)?;
    let (mut tree, mut store) = (Tree::new(alloc, &system)?, Store::new(alloc, &system)?);
    let turn = applied(alloc, &mut tree, &mut store, "/0/0.0")?;
    let meet = applied(alloc, &mut tree, &mut store, "/0/0.1.0")?;
    let other = applied(alloc, &mut tree, &mut store, "/0/1.0")?;
    let met = invert(&mut tree, &mut store, meet);
    assert!(rt; matches!(met.kind, Kind::Meet));
    assert!(rt; is_ready(alloc, &tree, &store, "/0/0.1.0")?);
    assert!(rt; matches!(invert(&mut tree, &mut store, turn).kind, Kind::Turn));
    assert!(rt; is_ready(alloc, &tree, &store, "/0/0.0")?);
    assert!(rt; !is_ready(alloc, &tree, &store, "/0/1.0")?);
    assert!(rt; matches!(invert(&mut tree, &mut store, other).kind, Kind::Turn));
    assert_eq!(rt; ready_events(alloc, &tree, &store)?.len(), 2);
    Ok(())
}
