//! Descriptions with their stimuli.

use debug_session::accept;
use sharing_check::Checked;
use std::alloc::Global;
use std::test::Fail;

/// A source text and a stimulus.
#[derive(Clone, Copy)]
pub struct Example {
    pub source: &'static str,
    pub stimulus: &'static str,
}

impl Example {
    /// The system that they describe.
    pub fn checked(self, alloc: Global) -> Result<Checked, Fail> {
        Ok(accept(alloc, self.source.as_bytes(), self.stimulus.as_bytes())?)
    }
}

/// A value in and out again.
pub const ONCE: Example = Example {
    source: "procedure p (input i : 8 bits ; output o : 8 bits) is
        variable x : 8 bits begin i -> x ; o <- x end",
    stimulus: "i = 5",
};

/// The one-place buffer.
pub const BUFFER: Example = Example {
    source: "procedure p (input i : 8 bits ; output o : 8 bits) is
        variable x : 8 bits begin loop i -> x ; o <- x end end",
    stimulus: "i = 5 7",
};

/// Two one-place buffers in a row.
pub const TWO_BUFFERS: Example = Example {
    source: "procedure one (input i : 8 bits ; output o : 8 bits) is
        variable x : 8 bits begin loop i -> x ; o <- x end end
        procedure row (input a : 8 bits ; output b : 8 bits) is
        channel c : 8 bits begin one (a, c) || one (c, b) end",
    stimulus: "a = 5 7",
};

/// A value that is held until both branches have sent it.
pub const FORK: Example = Example {
    source: "procedure p (input i : 8 bits ; output a, b : 8 bits) is
        variable x : 8 bits begin i -> then a <- i || b <- i end ; i -> x end",
    stimulus: "i = 5 7",
};

/// A value of channel 0 or of channel 2.
pub const ARBITER: Example = Example {
    source: "procedure p (input a : 8 bits ; output o : 8 bits ; input b : 8 bits) is
        begin arbitrate a then o <- a | b then o <- b end end",
    stimulus: "a = 5\nb = 7",
};

/// A value of either channel, with which nothing is done.
pub const ALIKE: Example = Example {
    source: "procedure p (input a, b : 8 bits) is
        begin select a then continue | b then continue end end",
    stimulus: "a = 5\nb = 5",
};

/// Two branches, one of them with two steps.
pub const BRANCHES: Example = Example {
    source: "procedure p is variable x, y : 8 bits begin x := 1 || [y := 2 ; y := 3] end",
    stimulus: "",
};

/// Two loops side by side.
pub const TWO_LOOPS: Example = Example {
    source: "procedure p is variable x, y : 8 bits begin loop x := 1 end || loop y := 2 end end",
    stimulus: "",
};

/// A branch that receives, deep inside it, from the branches on both sides of it and from the environment.
pub const CROSSING: Example = Example {
    source: "procedure p (input i : 8 bits) is
        channel a, b : 8 bits variable x, y, z, t : 8 bits begin
            a <- 1
            || [continue ; [a -> x || [continue ; b -> y] || i -> z]]
            || [continue ; [b <- 2 || t := 4]]
        end",
    stimulus: "i = 5",
};

/// The same in a loop, each branch with one step.
pub const LOOP_OF_BRANCHES: Example = Example {
    source: "procedure p is variable x, y : 8 bits begin loop x := 1 || y := 2 end end",
    stimulus: "",
};

/// Two writes of one variable.
pub const TWO_WRITES: Example = Example {
    source: "procedure p is variable x : 8 bits begin x := 1 ; x := 2 end",
    stimulus: "",
};

/// A loop of two turns.
pub const COUNTER: Example = Example {
    source: "procedure p is variable x : 8 bits begin
        loop while x < 2 then x := (x + 1 as 8 bits) end end",
    stimulus: "",
};

pub const CASE_WITH_ELSE: Example = Example {
    source: "procedure p is variable x : 8 bits begin case x of 1 then halt else x := 4 end end",
    stimulus: "",
};

/// Both guards are true.
pub const BOTH_GUARDS: Example = Example {
    source: "procedure p is variable x : 8 bits begin
        if x = 0 then x := 1 | x = 0 then x := 2 end end",
    stimulus: "",
};

/// The second guard is true.
pub const SECOND_GUARD: Example = Example {
    source: "procedure p is variable x : 8 bits begin
        if x = 7 then x := 1 | x = 0 then x := 2 else x := 3 end end",
    stimulus: "",
};

/// No guard is true, and there is an `else`.
pub const NO_GUARD: Example = Example {
    source: "procedure p is variable x : 8 bits begin
        if x = 7 then x := 1 | x = 8 then x := 2 else x := 3 end end",
    stimulus: "",
};

/// No guard is true, and there is no `else`.
pub const NO_ARM: Example = Example {
    source: "procedure p is variable x : 8 bits begin
        if x = 7 then x := 1 | x = 8 then x := 2 end end",
    stimulus: "",
};

/// A choice that a handshake opens.
pub const SELECTION: Example = Example {
    source: "procedure p is sync s begin sync s || select s then continue end end",
    stimulus: "",
};

/// Variables that are read in no order, and one of them twice.
pub const READER: Example = Example {
    source: "procedure p is variable r, a, b, c : 8 bits begin r := ((c or a) and c as 8 bits) end",
    stimulus: "",
};

/// Guards that are two variables, the later one first.
pub const GUARDS: Example = Example {
    source: "procedure p is variable x, y : 1 bits begin if y then x := 1 | x then y := 1 end end",
    stimulus: "",
};

/// A choice of two values that are both there.
pub const SELECT: Example = Example {
    source: "procedure p (input a, b : 8 bits ; output o : 8 bits) is
        begin select a then o <- a | b then o <- b end end",
    stimulus: "a = 5\nb = 7",
};

pub const TWO_SYNCS: Example = Example {
    source: "procedure p is sync s begin sync s || sync s end",
    stimulus: "",
};

/// One assignment of a value that is cut, or that wraps.
pub const CUT_AND_WRAPPED: [Example; 3] = [
    Example {
        source: "procedure p is variable x : 8 bits begin x := (255 + 1 as 8 bits) end",
        stimulus: "",
    },
    Example {
        source: "procedure p is variable x : 8 bits begin x := 0 - 1 end",
        stimulus: "",
    },
    Example {
        source: "procedure p is variable x : 8 bits begin x := 200 - 201 end",
        stimulus: "",
    },
];

pub const EMPTY_LOOP: Example = Example {
    source: "procedure p is begin loop continue end end",
    stimulus: "",
};

/// The one-place buffer, into which nothing comes.
pub const STARVED_BUFFER: Example = Example {
    source: "procedure p (input i : 8 bits ; output o : 8 bits) is
        variable x : 8 bits begin loop i -> x ; o <- x end end",
    stimulus: "i =",
};

/// A loop that syncs with the environment, once.
pub const SYNC_LOOP: Example = Example {
    source: "procedure p (sync s) is begin loop sync s end end",
    stimulus: "s * 1",
};

/// Two writes of one variable in each turn.
pub const LOOP_OF_WRITES: Example = Example {
    source: "procedure p is variable x : 8 bits begin loop [x := 1 ; x := 2] end end",
    stimulus: "",
};

/// A write and a read of a variable race.
pub const RACE: Example = Example {
    source: "procedure p is shared variable x : 8 bits variable y : 8 bits begin x := 1 || y := x end",
    stimulus: "",
};

/// Two writes of a variable race.
pub const RACE_OF_WRITES: Example = Example {
    source: "procedure p is shared variable x : 8 bits begin x := 1 || x := 2 end",
    stimulus: "",
};

/// A value that is computed in one branch and received in the other.
pub const HANDED_OVER: Example = Example {
    source: "procedure p is channel c : 8 bits variable x, y : 8 bits
        begin c -> x || [y := 3 ; c <- y] end",
    stimulus: "",
};
