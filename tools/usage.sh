# shellcheck shell=bash
# The command lines of the tools in bash, as usage.py has them for those in Python. It is sourced by a tool whose page, the comment at its top, has
# its usage in a line `usage: NAME ..`. Then `--help` prints the page, and words that aren't those of the usage end it before it begins, with status 64.

# The page of the tool that runs.
page() {
    sed -n '2,${/^#/!q;s/^# \{0,1\}//;p}' "$0"
}

# Ends a tool whose words are none of its usage.
refuse() {
    [ -z "${1-}" ] || echo "$(basename "$0"): $1" >&2
    page | awk '/^usage: / {on = 1; print; next} on && /^       / {print; next} {on = 0}' >&2
    exit 64
}

# Prints the page where it is asked for, and looks at the words: their least and greatest number, and the words; none of them is an option.
takes() {
    local least=$1 most=$2 word
    shift 2
    if [ "${1-}" = --help ] || [ "${1-}" = -h ]; then
        page
        exit 0
    fi
    for word; do
        if [[ $word = -* ]]; then refuse "there is no option $word"; fi
    done
    if [ $# -lt "$least" ] || [ $# -gt "$most" ]; then refuse; fi
}

# Ends a tool whose PREFIX has no library.
takes_library() {
    [ -f "$1/lib/libbaggage.a" ] || refuse "there is no library in $1; make_library makes one"
}

# Ends a tool, before it begins, where something that it can't do without is missing.
needs() {
    local tool
    for tool; do
        if ! command -v "$tool" >/dev/null; then
            case $tool in
            rt) echo "$(basename "$0"): there is no rt on the PATH, the command of the Rattle toolchain" >&2 ;;
            *) echo "$(basename "$0"): there is no $tool on the PATH; tools/setup --list has the packages" >&2 ;;
            esac
            exit 69
        fi
    done
}
