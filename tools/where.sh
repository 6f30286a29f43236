# shellcheck shell=bash
# Where the tools in bash look for what was built, as where.py has it for those in Python. It is sourced.

# The folder in which the library is installed, where none is named.
where_library() {
    echo "${BAGGAGE_CACHE:-$top/.baggage}/library"
}

# The program, where none is named; the first place where it is nowhere.
where_program() {
    local path
    for path in ${PROGRAM:+"$PROGRAM"} "$top/crates/baggage/out/baggage" "${BAGGAGE_CACHE:-$top/.baggage}/baggage"; do
        if [ -x "$path" ]; then
            echo "$path"
            return
        fi
    done
    echo "${PROGRAM:-$top/crates/baggage/out/baggage}"
}
