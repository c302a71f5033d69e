#!/usr/bin/env bash
# The examples of docs/COMMANDS.md, as they are printed.
#
# An example is an indented line `$ btr_run ..`, the lines of its input with `> ` in front, its output, and `= STATUS`.
# `U`, `V` and `W` are short for three ids. All examples run in order in one folder.
# shellcheck source=checks/common.sh
. "$(dirname "$0")/common.sh"

# Cuts the examples into files: for example N its words in N.words, its input in N.input, its output and status in N.wanted.
awk '
    function ids(s,    words, count, i, out) {
        count = split(s, words, " ")
        for (i = 1; i <= count; i++) {
            if (words[i] == "U") words[i] = "11111111-1111-4111-8111-111111111111"
            if (words[i] == "V") words[i] = "22222222-2222-4222-8222-222222222222"
            if (words[i] == "W") words[i] = "33333333-3333-4333-8333-333333333333"
            out = out (i > 1 ? " " : "") words[i]
        }
        return out
    }
    !/^    / { on = 0; next }
    { line = substr($0, 5) }
    line ~ /^\$ btr_run / { n++; on = 1; print substr(line, 11) >(n ".words"); printf "" >(n ".input"); printf "" >(n ".wanted"); next }
    !on { next }
    line ~ /^> / { print ids(substr(line, 3)) >(n ".input"); next }
    line ~ /^= / { print line >(n ".wanted"); on = 0; next }
    { print line >(n ".wanted") }' "$top/docs/COMMANDS.md"

n=1
while [ -f "$n.words" ]; do
    # shellcheck disable=SC2046
    found=$("$program" $(cat "$n.words") <"$n.input"; echo "= $?")
    expect "COMMANDS.md, example $n: $(cat "$n.words")" "$found" "$(cat "$n.wanted")"
    n=$((n + 1))
done
[ "$n" -gt 1 ] || echo 'FAILED COMMANDS.md: it has no example'
