# A copy of the repository with one more crate, the program that is timed. To be sourced, with `root`, `folder` and
# `bench`, the crate's line of crates.txt. What the checks of the crates have kept comes along and saves their proofs.

name=${bench%%:*}
mkdir -p "$folder/sources"
cp -au "$root/crates" "$root/HANDLES" "$folder/"
{ cat "$root/crates.txt"; echo "$bench"; } > "$folder/crates.txt"
mkdir -p "$folder/crates/$name/src"
