# shellcheck shell=sh
# What the launchers fartable, farrun, wordcount and farserve share: . "$bin/launch.sh"

# A proved program can't ignore a signal, so who starts it does. A file that may not grow is a write that fails then, and not the
# end of the program.
trap '' XFSZ

# The next file that is opened would get the number of a closed standard file, and be taken for it. So standard input is a folder then,
# which can't be read, and standard output a file that can't be written, and programs report that.
(: 3<&0) 2>/dev/null || exec </
(: 3>&1) 2>/dev/null || exec 1</dev/null
(: 3>&2) || exec 2>/dev/null

# Runs a program of crates.txt with these words: run NAME [--version | [--proved] WORD..]
run() {
    name=$1
    shift
    # In a release the programs are there already, with the C library that they were built with.
    programs=${bin%/*}/programs
    if [ -d "$programs" ]; then
        case "${1:-}" in
        --version) exec cat "$programs/$name.build" ;;
        --proved)
            printf '%s: a release has no sources to prove; --version says whether they were proved\n' "$name" >&2
            exit 126
            ;;
        esac
        exec "$programs/ld.so" --library-path "$programs" "$programs/$name" "$@"
    fi
    if [ "${1:-}" = --version ]; then exec "$bin/build" --version "$name"; fi
    status=0
    program=$("$bin/build" --start "$name" "$@" </dev/null) || status=$?
    # It has said why, or asks for the help.
    if [ "$status" -eq 3 ]; then exec cat "$bin/help/$name.txt"; fi
    if [ "$status" -ne 0 ]; then exit "$status"; fi
    if [ "${1:-}" = --proved ]; then
        shift
        if [ "$#" -eq 0 ]; then exit 0; fi
    fi
    exec "$program" "$@"
}
