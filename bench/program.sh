# For the scripts of this folder, to be sourced at the repository's root.

# Names the program of a crate in `program`. Where there is an rt it is built first, so that no older one is timed.
use_program_of() {
    program=crates/$1/out/$1
    if command -v rt >/dev/null; then
        rm -f "$program"
        (cd "crates/$1" && rt run) >/dev/null 2>&1
        if [ ! -x "$program" ]; then
            echo "wrong: $1 can't be built" >&2
            exit 1
        fi
    elif [ ! -x "$program" ]; then
        echo "skipped: $1 is not built, and there is no rt to build it"
        exit 0
    fi
}
