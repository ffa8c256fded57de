#!/bin/sh
# need.sh PROGRAM..: says in a sentence which of these programs are not there, and fails where one is missing. Where rt is asked
# for, it warns if the kit is another than the one that the project was proved with: another may refuse what this one proved.
same_kit() {
    read -r pinned < "${0%/*}/kit-version"
    kit=$(rt version 2> /dev/null)
    [ "$kit" = "$pinned" ] || echo "warning: the kit here is '$kit'; the project was proved with '$pinned'" >&2
}

missing=0
for program in "$@"; do
    if command -v "$program" > /dev/null 2>&1; then
        [ "$program" != rt ] || same_kit
        continue
    fi
    missing=1
    case $program in
    rt) echo "rt, the Rattle kit's command, is not there: install the kit and put its bin on PATH" >&2 ;;
    python3) echo "python3 is not there: install Python 3.9 or later" >&2 ;;
    cargo) echo "cargo is not there: install Rust to build the oracle" >&2 ;;
    parallel) echo "parallel is not there: install GNU parallel (Debian: apt install parallel)" >&2 ;;
    *) echo "$program is not there: install it" >&2 ;;
    esac
done
exit $missing
