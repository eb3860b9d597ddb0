# Sources that stand outside crates/, laid out as a crate. To be sourced.
#
# The gate reads each .rt and .antt file of the repository as part of a crate that it proves. What it does not prove, tests
# for the trial build and programs that are timed, therefore ends in .rs and .antt.in here.

# Copies the folder $1 to $2, which is made, with the endings that the toolchain reads.
lay_out() {
    local file
    while read -r file; do
        mkdir -p "$2/$(dirname "$file")"
        case $file in
            *.rs) cp "$1/$file" "$2/${file%.rs}.rt" ;;
            *) cp "$1/$file" "$2/${file%.in}" ;;
        esac
    done < <(cd "$1" && find . -type f)
}
