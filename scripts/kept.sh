# The programs that are kept in out/, for ./balsadbg, ./build and ./test. To be sourced at the top of the repository.
#
# out/balsadbg is the proved program, out/balsadbg-trial the trial program, which the toolchain compiled without proof, and
# out/balsadbg-quick the quick program: the same as that, compiled once more, optimized and without the checker of memory.
# Beside each stands NAME.texts: a line for the texts that it was made of, and a line for the toolchain that made it.
#
# Beside the last two stand NAME.lock, held by who makes it, and NAME.none, with the lines of NAME.texts, where it cannot be
# made; balsadbg-trial.told, where a terminal was told that this is a build without proof; balsadbg-quick.log, and while it
# is made balsadbg-quick.room.

kept=out/balsadbg
kept_trial=out/balsadbg-trial
kept_quick=out/balsadbg-quick
# As README.md says.
build_takes="one to two hours on 4 processors"

needs_toolchain() {
    command -v rt >/dev/null && return
    echo "balsadbg: the Rattle toolchain (rt) is not on the PATH; README.md says which one is needed" >&2
    exit 1
}

# The line by which the toolchain on the PATH is known. Nothing where none is there.
toolchain() {
    local rt
    rt=$(command -v rt) || return 0
    cat "$(dirname "$(readlink -f "$rt")")/../KIT-ID" 2>/dev/null || true
}

# The crates that the program is made of, in the order of crates.txt, which has the lowest first.
crates_of_program() {
    awk -F: '
        /^#/ || NF < 2 { next }
        { order[++count] = $1; below[$1] = $2 }
        END {
            wanted["command_line"] = 1
            for (at = count; at > 0; at--)
                if (order[at] in wanted) {
                    parts = split(below[order[at]], names, " ")
                    for (part = 1; part <= parts; part++) wanted[names[part]] = 1
                }
            for (at = 1; at <= count; at++) if (order[at] in wanted) print order[at]
        }' crates.txt
}

# One line that differs where any text that the program is made of differs.
texts() {
    local crates
    mapfile -t crates < <(crates_of_program)
    {
        printf '%s\0' crates.txt HANDLES
        find "${crates[@]/#/crates/}" -name out -prune -o -type f \( -name '*.rt' -o -name '*.antt' \) -print0
    } | LC_ALL=C sort -z | xargs -0 sha256sum | sha256sum
}

# Whether the lines of the file $1 are those of the texts $2, and of the toolchain on the PATH if there is one. So what is
# kept needs no toolchain to be started.
is_of() {
    local of_texts="" of_toolchain="" here
    [ ! -f "$1" ] || { read -r of_texts && read -r of_toolchain; } < "$1" || return 1
    [ "$of_texts" = "$2" ] || return 1
    here=$(toolchain)
    [ -z "$here" ] || [ "$of_toolchain" = "$here" ]
}

# Whether the program $1 is kept and was made of the texts $2.
is_kept() {
    [ -x "$1" ] && is_of "$1.texts" "$2"
}

# Readies this shell to start the trial program. A checker of memory is part of it, which wants terabytes of addresses, makes
# frames some ten times those of the proved program, and would heed options.
for_trial() {
    if [ "$(ulimit -v)" != unlimited ]; then
        echo "balsadbg: a build without proof does not start under a limit of memory (ulimit -v); ./build makes one that does" >&2
        exit 3
    fi
    ulimit -S -s 262144 2>/dev/null || ulimit -S -s "$(ulimit -H -s)" 2>/dev/null || true
    unset ASAN_OPTIONS LSAN_OPTIONS
}

# Whether anything can be kept here.
can_keep() {
    mkdir -p out 2>/dev/null && [ -w out ]
}

# Keeps the proved program $1, which was built from the texts $2.
keep() {
    mkdir -p out
    cp "$1" "$kept.new"
    printf '%s\n' "$2" "$(toolchain)" > "$kept.texts.new"
    rm -f "$kept.texts"
    mv -f "$kept.new" "$kept"
    mv -f "$kept.texts.new" "$kept.texts"
}

# How many tasks of the prover go side by side: one a processor, as far as each finds 5 GB of memory.
tasks() {
    local memory
    memory=$(awk '/^MemAvailable/ { print int($2 / 5000000) }' /proc/meminfo)
    echo $((memory < 1 ? 1 : memory < $(nproc) ? memory : $(nproc)))
}

# Where the libraries that the crates' own checks have built stand while the gate runs. (`rt ci` lets no such file lie below
# the top of the repository.)
aside() {
    echo "$(git rev-parse --absolute-git-dir 2>/dev/null || echo "${TMPDIR:-/tmp}/balsadbg-$(id -u)")/built-before-the-gate"
}

# Moves those libraries out of the way. `rt ci` gives each crate back, at its end, what stood there, and so leaves its own
# where nothing did. A gate that was killed may have left some there.
set_aside() {
    local library crate
    put_back
    for library in crates/*/out/rlib; do
        [ -d "$library" ] || continue
        crate=$(basename "${library%/out/rlib}")
        mkdir -p "$(aside)/$crate"
        mv "$library" "$(aside)/$crate/rlib"
    done
}

# Puts them back in place of what `rt ci` has built.
put_back() {
    local library crate
    for library in "$(aside)"/*/rlib; do
        [ -d "$library" ] || continue
        crate=$(basename "${library%/rlib}")
        [ -d "crates/$crate" ] || continue
        rm -rf "crates/$crate/out/rlib"
        mkdir -p "crates/$crate/out"
        mv "$library" "crates/$crate/out/rlib"
    done
    rm -rf "$(aside)"
}
