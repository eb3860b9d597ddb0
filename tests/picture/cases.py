"""The runs that are drawn: those of examples/, random ones, and some that go to a limit."""

from dataclasses import dataclass, replace
from pathlib import Path
from random import Random

from random_cases.cases import case_of
from reference.debugger import accept
from reference.faults import Refused
from reference.machine import Machine
from reference.traces import load, trace_of

EXAMPLES = Path(__file__).resolve().parents[2] / "examples"
HEADER = b"balsadbg trace 1\n"
# a run of more steps is large, and one of more branches
LARGE, WIDE = 4000, 100


@dataclass(frozen=True)
class Case:
    name: str
    source: bytes
    stimulus: bytes
    trace: bytes
    trace_name: str = "c.trace"
    # the second implementation takes too long for it
    is_large: bool = False


def random_trace(source: bytes, stimulus: bytes, seed: int, steps: int) -> bytes:
    """The trace of so many random steps, or of fewer, where none is left."""
    random, machine = Random(seed), Machine(accept(source, stimulus))
    for _ in range(steps):
        ready = machine.ready()
        if not ready:
            break
        event = random.choice(ready)
        machine.step(event.acting, event.arm)
    return "".join(line + "\n" for line in trace_of(machine)).encode()


def examples(lengths: tuple[int, ...] = (0, 7, 60, 200)) -> list[Case]:
    """The runs that lie in examples/, and of each circuit random ones of so many steps."""
    found = []
    for file in sorted(EXAMPLES.glob("*.balsa")):
        source, stimulus = file.read_bytes(), file.with_suffix(".stimulus").read_bytes()
        trace = file.with_suffix(".trace")
        if trace.exists():
            found.append(Case(file.stem, source, stimulus, trace.read_bytes()))
        for seed, steps in enumerate(lengths):
            found.append(Case(f"{file.stem}_{steps}", source, stimulus, random_trace(source, stimulus, seed, steps)))
    return found


def random_runs(count: int) -> list[Case]:
    found, seed = [], 0
    while len(found) < count:
        seed += 1
        case = case_of("trace-run", seed)
        try:
            load(accept(case.source, case.stimulus), case.trace)
        except Refused:
            continue
        found.append(Case(f"random_{seed}", case.source, case.stimulus, case.trace))
    return found


def long_run(rounds: int) -> Case:
    """So many rounds of one step in each of the two buffers of examples/, behind which both wait for a value: five events a round."""
    lines = []
    for turn in range(rounds):
        lines += [f"step /0/0.{2 * turn} 0", f"step /0/0.{2 * turn + 1}.0 0", f"step /0/1.{2 * turn} 0", f"step /0/1.{2 * turn + 1}.0 0",
                  f"step /2.{turn} 0"]
    stimulus = "i =" + " 5" * rounds + "\n"
    trace = HEADER + "".join(line + "\n" for line in lines).encode()
    return Case(f"long_{5 * rounds}", (EXAMPLES / "two_buffers.balsa").read_bytes(), stimulus.encode(), trace)


def one_lane(turns: int) -> Case:
    """One branch that counts, so often."""
    source = b"type byte is 8 bits\nprocedure count is\n  variable x : byte\nbegin\n  loop\n    x := (x + 1 as byte)\n  end\nend\n"
    lines = "".join(f"step /0.{turn} 0\n" for turn in range(turns))
    return Case(f"one_lane_{turns}", source, b"", HEADER + lines.encode(), is_large=turns > LARGE)


def wide(lanes: int) -> Case:
    """So many branches side by side, each with one assignment."""
    names = [f"x{number}" for number in range(lanes)]
    source = ("type byte is 8 bits\nprocedure wide is\n  variable " + ", ".join(names) + " : byte\nbegin\n  "
              + " || ".join(f"{name} := 1" for name in names) + "\nend\n")
    lines = "".join(f"step /0/{number} 0\n" for number in range(lanes))
    return Case(f"wide_{lanes}", source.encode(), b"", HEADER + lines.encode())


def waiting(lanes: int, turns: int) -> Case:
    """So many branches that wait from the start on for nobody, beside one that counts, so often; where it does not, it is not there."""
    names = ", ".join(f"s{number}" for number in range(lanes))
    branches = ["loop x := (x + 1 as byte) end"] * bool(turns) + [f"sync s{number}" for number in range(lanes)]
    source = (f"type byte is 8 bits\nprocedure waiting is\n  sync {names}\n  variable x : byte\nbegin\n  "
              + " || ".join(branches) + "\nend\n")
    lines = "".join(f"step /0/0.{turn} 0\n" for turn in range(turns))
    return Case(f"waiting_{lanes}_beside_{turns}", source.encode(), b"", HEADER + lines.encode())


def long_names(letters: int, value: int = 1) -> Case:
    """A port, a channel and a variable with names of so many letters, and a value that goes through all three."""
    port, channel, variable = ("p" * letters, "c" * letters, "v" * letters)
    source = (f"type word is 64 bits\nprocedure names (output {port} : word) is\n  channel {channel} : word\n  variable {variable} : word\n"
              f"begin\n  [ {channel} <- {value} || {channel} -> {variable} ] ;\n  {variable} := {variable} ;\n  {port} <- {variable}\nend\n")
    trace = HEADER + b"step /0.0/1 0\nstep /0.1 0\nstep /1.0 0\n"
    return Case(f"names_{letters}_{value}", source.encode(), b"", trace)


def end_case(name: str, source: str, stimulus: str = "", steps: tuple[str, ...] = ()) -> Case:
    """A run of a procedure with these ports, channels and variables of 8 bits, behind these steps."""
    lines = "".join(f"step {step}\n" for step in steps)
    return Case(name, source.encode(), stimulus.encode(), HEADER + lines.encode())


def random_case(name: str, source: str, stimulus: str, steps: int) -> Case:
    """A run of so many random steps."""
    return Case(name, source.encode(), stimulus.encode(), random_trace(source.encode(), stimulus.encode(), 1, steps))


def ends() -> list[tuple[Case, str, str]]:
    """A run of each kind of end: with the words at the top of its page, and what its panel says."""
    kept = {case.name: case for case in examples(())}
    two = "procedure p (input i, j : 8 bits) is\n  channel c, d : 8 bits\n  variable x, y, z : 8 bits\nbegin\n  "
    one = "procedure p (input i : 8 bits) is\n  channel c, d : 8 bits\n  variable x, y, z : 8 bits\nbegin\n  "
    ring = "[c -> x ; d <- x] || [d -> y ; c <- y]"
    never = "Some of what waits never goes on, whatever the stimulus."
    halt = "The circuit is at a halt, which never ends."
    return [
        (end_case("goes_on", one + "i -> x\nend\n", "i = 1\n"), "1 ready", "1 step can be taken"),
        (kept["one"], "done", "The circuit has ended."),
        (end_case("done_with_more", one + "i -> x\nend\n", "i = 1 2\n", ("/0 0",)), "done", "The circuit has ended."),
        (kept["stalled_pipeline"], "out of input", "It waits for more stimulus on k."),
        (end_case("out_of_two", two + "loop select c then x := c | d then x := d end end ||\n  loop i -> y ; c <- y end ||\n"
                  "  loop j -> z ; d <- z end\nend\n", "", ("/0/0.0 0", "/0/1.0 0", "/0/2.0 0")),
         "out of input", "It waits for more stimulus on i or j."),
        (end_case("out_of_syncs", "procedure p (sync s) is begin sync s end"), "out of input", "It waits for more stimulus on s."),
        (end_case("no_sender", one + "c -> x\nend\n"), "stuck", never),
        (end_case("behind_a_halt", one + "[i -> x ; halt ; c <- x] || c -> y\nend\n", "i = 1\n", ("/0/0.0 0",)), "stuck", never),
        (end_case("held_for_ever", two + "select i then loop j -> y end end\nend\n", "i = 1\n", ("/0.0 0", "/0.1.0 0")), "stuck", never),
        (end_case("halt", one + "halt ; i -> x\nend\n", "i = 1\n"), "stuck", halt),
        (end_case("halt_in_an_arm", one + "i -> then halt end\nend\n", "i = 1\n", ("/0.0 0",)), "stuck", halt),
        (kept["philosophers"], "deadlock", "Deadlock. 6 places wait in a ring, each for the next."),
        (end_case("ring_and_step", one + ring + " || i -> z\nend\n", "i = 1\n"), "deadlock", "1 step can be taken"),
        (end_case("ring_and_input", one + ring + " || i -> z\nend\n"), "deadlock", "Deadlock. 2 places wait in a ring, each for the next."),
    ]


def odd_bytes() -> Case:
    """A source with a comment that is no UTF-8, that would end a script or a comment of a page, and that has signs of XML."""
    comment = b"-- \xff\xfe \xc3( </script><!-- & ]]> \xe2\x82\xac \x01\n"
    case = next(one for one in examples(()) if one.name == "one")
    return Case("odd_bytes", comment + case.source, case.stimulus, case.trace)


def far_name() -> Case:
    """A trace that lies in a folder."""
    case = next(one for one in examples(()) if one.name == "one")
    return Case("far_name", case.source, case.stimulus, case.trace, "a & folder/c.trace")


def odd_name() -> Case:
    """A trace whose name has signs of XML and of JSON, and a letter that is no ASCII."""
    case = next(one for one in examples(()) if one.name == "one")
    return Case("odd_name", case.source, case.stimulus, case.trace, "a<b>&\"'\\\u00e9.trace")


def long_race(letters: int) -> Case:
    """Two branches between which only a variable makes an order, whose name has so many letters."""
    name = "s" * letters
    source = f"procedure race is\n  shared variable {name} : 8 bits\n  variable y : 8 bits\nbegin\n  {name} := 1 || y := {name}\nend\n"
    return end_case(f"race_{letters}", source, "", ("/0/0 0", "/0/1 0"))


def received_left(letters: int) -> Case:
    """A value that goes to the left, into a variable in the first column whose name has so many letters."""
    name = "r" * letters
    source = (f"procedure left (output o : 8 bits) is\n  channel c : 8 bits\n  variable {name} : 8 bits\nbegin\n"
              f"  [ c -> {name} || c <- 5 ] ; o <- {name}\nend\n")
    return end_case(f"received_left_{letters}", source, "", ("/0.0/0 0", "/1.0 0"))


def receiving(turns: int, letters: int) -> Case:
    """A loop that receives so often into a variable whose name has so many letters."""
    name = "r" * letters
    source = (f"procedure receiving is\n  channel c : 1 bits\n  variable {name} : 1 bits\nbegin\n"
              f"  loop [ c <- 1 || c -> {name} ] end\nend\n")
    steps = tuple(step for turn in range(turns) for step in (f"/0.{2 * turn} 0", f"/0.{2 * turn + 1}/1 0"))
    return replace(end_case(f"receiving_{turns}_{letters}", source, "", steps), is_large=turns > WIDE)


def late_lines(lines: int) -> Case:
    """Branches side by side behind so many lines of comment."""
    source = "-- c\n" * lines + "procedure late (sync s, t, u) is\nbegin\n  sync s ||\n  sync t ||\n  sync u\nend\n"
    return random_case(f"late_lines_{lines}", source, "s * 1\nt * 1\nu * 1\n", 3)


def counters(steps: int) -> Case:
    """Two branches that count in one variable, so many steps."""
    body = "loop {0} := counter ; counter := ({0} + 1 as 8 bits) end"
    source = ("procedure counters is\n  shared variable counter : 8 bits\n  variable a, b : 8 bits\nbegin\n  "
              + " || ".join(body.format(name) for name in "ab") + "\nend\n")
    return random_case(f"counters_{steps}", source, "", steps)


def loops(lanes: int) -> Case:
    """Behind one assignment so many branches side by side, each a loop, of which each makes one round."""
    names = [f"x{number}" for number in range(lanes)]
    source = ("procedure loops is\n  variable x, " + ", ".join(names) + " : 8 bits\nbegin\n  x := 1 ;\n  [ "
              + " || ".join(f"loop {name} := 1 end" for name in names) + " ]\nend\n")
    steps = ["/0.0 0", *(f"/0.1/{lane}.{part} 0" for lane in range(lanes) for part in (0, 1))]
    return replace(end_case(f"loops_{lanes}", source, "", tuple(steps)), is_large=lanes > WIDE)


def counting(lanes: int, turns: int) -> Case:
    """So many branches side by side, each of which counts and goes on behind so many turns."""
    names = [f"x{number}" for number in range(lanes)]
    source = ("procedure counting is\n  variable " + ", ".join(names) + " : 8 bits\nbegin\n  "
              + " || ".join(f"loop {name} := ({name} + 1 as 8 bits) end" for name in names) + "\nend\n")
    steps = [f"/0/{lane}.{part} 0" for part in range(2 * turns) for lane in range(lanes)]
    return replace(end_case(f"counting_{lanes}_{turns}", source, "", tuple(steps)), is_large=lanes > WIDE)


def rounds(lanes: int, turns: int) -> Case:
    """A loop around so many branches side by side, so often."""
    names = [f"x{number}" for number in range(lanes)]
    source = ("procedure rounds is\n  variable " + ", ".join(names) + " : 8 bits\nbegin\n  loop "
              + " || ".join(f"{name} := 1" for name in names) + " end\nend\n")
    steps = [step for turn in range(turns) for step in (f"/0.{2 * turn} 0", *(f"/0.{2 * turn + 1}/{lane} 0" for lane in range(lanes)))]
    return replace(end_case(f"rounds_{lanes}_{turns}", source, "", tuple(steps)), is_large=lanes > WIDE)


def wide_letters() -> Case:
    """A trace in whose name are letters that take more than one byte."""
    case = next(one for one in examples(()) if one.name == "one")
    return Case("wide_letters", case.source, case.stimulus, case.trace, "\u00e9" * 80 + "\u4e2d" * 20 + ".trace")


def crowded() -> list[Case]:
    """Runs whose texts have little room: long names side by side, large values, orders by variables across links, and rings."""
    stations = ("/0/0.0", "/0/1.0", "/0/2.0", "/0/3.0", "/0/3.1.0", "/0/4.0", "/0/4.1/0", "/0/4.1/1", "/0/4.1/2", "/1.0", "/0/3.2", "/0/3.3.0",
                "/1.1", "/0/3.4")
    return [random_case("crowded_ports", CROWDED_PORTS, "an_input_port_with_a_long_name = 18446744073709551615 12345678901234567890 3\n"
                        "a_sync_port_of_some_length_too * 3\n", 40),
            random_case("crowded_router", CROWDED_ROUTER, "incoming_words = 18446744073709551615 3 7 18446744073709551614 4\n", 110),
            end_case("crowded_stations", CROWDED_STATIONS, "s = 200 9\n", tuple(f"{step} 0" for step in stations)),
            *(cells(places) for places in (2, 3, 6, 8, 12, 30, 70))]


def cells(places: int) -> Case:
    """So many cells in a ring, each of which waits for the one before it."""
    calls = " || ".join(f"cell (c{place}, c{(place + 1) % places})" for place in range(places))
    channels = ", ".join(f"c{place}" for place in range(places))
    source = ("procedure cell (input i : 8 bits; output o : 8 bits) is\n  variable x : 8 bits\nbegin\n  loop i -> x ; o <- x end\nend\n"
              f"procedure cells is\n  channel {channels} : 8 bits\nbegin\n  {calls}\nend\n")
    return end_case(f"cells_{places}", source, "", tuple(f"/0/{place}.0 0" for place in range(places)))


CROWDED_PORTS = """type w is 64 bits
procedure the_receiving_procedure (input a_channel_with_a_name_that_is_far_too_long : w; output the_output_port_with_a_long_name : w) is
  variable the_variable_with_a_name_that_is_also_rather_long : w
begin
  loop
    a_channel_with_a_name_that_is_far_too_long -> the_variable_with_a_name_that_is_also_rather_long ;
    the_variable_with_a_name_that_is_also_rather_long := (the_variable_with_a_name_that_is_also_rather_long - 1 as w) ;
    the_output_port_with_a_long_name <- the_variable_with_a_name_that_is_also_rather_long
  end
end
procedure ports (input an_input_port_with_a_long_name : w; output the_output_port_with_a_long_name_1, the_output_port_with_a_long_name_2 : w;
                 sync a_sync_port_of_some_length_too) is
  channel a_channel_with_a_name_that_is_far_too_long_1, a_channel_with_a_name_that_is_far_too_long_2 : w
  shared variable the_variable_that_both_branches_write_1, the_variable_that_both_branches_write_2 : w
  variable h : w
begin
  [ loop
    an_input_port_with_a_long_name -> h ; the_variable_that_both_branches_write_1 := h ;
    the_variable_that_both_branches_write_2 := the_variable_that_both_branches_write_1 ;
    a_channel_with_a_name_that_is_far_too_long_1 <- h ;
    a_channel_with_a_name_that_is_far_too_long_2 <- the_variable_that_both_branches_write_2
  end ]
  || the_receiving_procedure (a_channel_with_a_name_that_is_far_too_long_1, the_output_port_with_a_long_name_1)
  || the_receiving_procedure (a_channel_with_a_name_that_is_far_too_long_2, the_output_port_with_a_long_name_2)
  || [ loop
    sync a_sync_port_of_some_length_too ;
    the_variable_that_both_branches_write_1 := (the_variable_that_both_branches_write_2 - 6 as w)
  end ]
end
"""
CROWDED_ROUTER = """type word is 64 bits
type nib is 4 bits
procedure log (sync tick; output total : nib) is
  variable n : nib
begin
  loop sync tick ; n := (n + 1 as nib) ; total <- n end
end
procedure worker (input job : word; output result : word; sync tick) is
  variable accumulated_value_of_worker : word
begin
  loop
    job -> accumulated_value_of_worker ;
    [ sync tick || accumulated_value_of_worker := (accumulated_value_of_worker - 1 as word) ] ;
    result <- accumulated_value_of_worker
  end
end
procedure joiner (input from_first, from_second : word; output o : word) is
begin
  loop
    arbitrate from_first then o <- from_first
    | from_second then o <- (from_second - 1 as word)
    end
  end
end
procedure pair (input the_first_job_channel, the_second_job_channel : word; output o : word; sync t1, t2) is
  channel a_rather_long_result_name_one, a_rather_long_result_name_two : word
begin
  worker (the_first_job_channel, a_rather_long_result_name_one, t1)
  || worker (the_second_job_channel, a_rather_long_result_name_two, t2)
  || joiner (a_rather_long_result_name_one, a_rather_long_result_name_two, o)
end
procedure top (input incoming_words : word; output outgoing_words : word; output total_one, total_two : nib) is
  variable v : word
  channel j1, j2 : word
  sync t1, t2
begin
  [ loop incoming_words -> v ; if v < 100 then j1 <- v else j2 <- v end end ]
  || pair (j1, j2, outgoing_words, t1, t2)
  || log (t1, total_one)
  || log (t2, total_two)
end
"""
CROWDED_STATIONS = """type byte is 8 bits
procedure a_station_with_a_long_name (input from_the_left_neighbour : byte; output to_the_right_neighbour : byte) is
  variable x : byte
begin
  loop from_the_left_neighbour -> x ; to_the_right_neighbour <- x end
end
procedure ticker (output beat : byte) is
  variable n : byte
begin
  loop n := (n + 1 as byte) ; beat <- n end
end
procedure spill (input s : byte) is
  shared variable q : byte
begin
  s -> q ; [ q := (q + 1 as byte) || q := (q + 2 as byte) || q := (q + 4 as byte) ] ; halt
end
procedure stations (output beat : byte; input s : byte) is
  channel between_first_and_second_station, between_second_and_third_station, between_third_and_first_station : byte
begin
  a_station_with_a_long_name (between_third_and_first_station, between_first_and_second_station)
  || a_station_with_a_long_name (between_first_and_second_station, between_second_and_third_station)
  || a_station_with_a_long_name (between_second_and_third_station, between_third_and_first_station)
  || ticker (beat)
  || spill (s)
end
"""
