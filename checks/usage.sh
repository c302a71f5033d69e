#!/usr/bin/env bash
# What is said of words that are refused: `no usage` on standard output, and a short usage on standard error.
# shellcheck source=checks/common.sh
. "$(dirname "$0")/common.sh"

# Checks a run with these words: NAME FIRST-LINE WORDS..
refused() {
    local name=$1 first=$2
    shift 2
    play "$@" </dev/null
    expect "$name" "$status, $(one_line "$(cat out)"), $(head -n 1 err)" "2, no usage, btr_run: $first"
}

refused 'no words' 'the device is missing'
refused 'no command' 'the command is missing' device
refused 'a request for help' 'the command is missing' --help
expect 'a request for help makes no file' "$(ls -- --help 2>/dev/null)" ''
refused 'a command that is not there' 'there is no command `fromat`' device fromat --blocks 64
refused 'words that do not fit a command' 'the words after `format` do not fit it' device format --blocks 7

play device bogus </dev/null
expect 'the usage is short' "$(($(wc -l <err) <= 20))" 1
expect 'the usage has the commands of COMMANDS.md' "$(sed -n 's/^    //p' err)" \
    "$(sed -n '/^| command | input/,/^$/s/^| `\([^`]*\)` .*/\1/p' "$top/docs/COMMANDS.md")"

play device format --blocks 8 </dev/null
expect 'nothing is said of a command that is done' "$(cat err)" ''
"$program" device bogus </dev/null >out 2>&-
expect 'standard error may be closed' "$?, $(cat out)" '2, no usage'
