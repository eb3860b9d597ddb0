#!/usr/bin/env bash
# Lays out in FOLDER, which is made, what the trial build of the tests reads: the sources of all crates, and the tests as the
# crate `libraries` above them. The trial build reads no specs/ and no proofs/, and nothing that a check has kept.
#
#     tests/libraries/workspace.sh FOLDER
set -euo pipefail
folder=$1
here=$(cd "$(dirname "$(readlink -f "${BASH_SOURCE[0]}")")" && pwd)
root=$(cd "$here/../.." && pwd)
. "$root/scripts/laid_out.sh"
below="rows value address syntax lexer parser types typed_source system elaborate sharing_check front_end runs calculus dependence machine rollback"
below+=" locked_object object_workers devices trace_file locked_execution branch_workers source_view debug_session store process_tree event_inverse local_actions channel_uses allowed_events rendezvous"
below+=" outline past waiting diagnosis refusal_pages source_places shell"

while IFS=: read -r crate _; do
    case $crate in \#* | "") continue ;; esac
    mkdir -p "$folder/crates/$crate"
    ln -s "$root/crates/$crate/src" "$folder/crates/$crate/src"
done < "$root/crates.txt"
lay_out "$here/src" "$folder/crates/libraries/src"
cp "$root/HANDLES" "$folder"
{ cat "$root/crates.txt"; echo "libraries: $below"; } > "$folder/crates.txt"
