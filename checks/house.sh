#!/usr/bin/env bash
# How long contracts, signatures, files and proofs are: no more of them are over the limits than this many. A change that shortens some lowers
# the number here.
# shellcheck source=checks/common.sh
. "$(dirname "$0")/common.sh"

# Prints `LIMIT CRATE/FILE:FUNCTION N` for each function that is over a limit: more than 8 clauses, a clause of more than 200 columns when its
# lines are joined by a space, more than 6 parameters; and `lines CRATE/FILE N` for each file of more than 400 lines.
over_limits() {
    (cd "$top" && find crates/*/src -name '*.rt' | grep -v '^crates/[a-z_]*_tests/' | sort | xargs awk '
        # The number of parameters of a signature: commas in its own parentheses, and one more if the last has none after it.
        function parameters(text,    i, c, depth, n, inside) {
            sub(/^.*fn [a-z_0-9]+/, "", text)
            if (substr(text, 1, 1) == "<") {
                for (i = 1; i <= length(text); i++) {
                    c = substr(text, i, 1)
                    depth += (c == "<") - (c == ">" && substr(text, i - 1, 1) != "-")
                    if (depth == 0) break
                }
                text = substr(text, i + 1)
            }
            depth = 0; n = 0; inside = ""
            for (i = 1; i <= length(text); i++) {
                c = substr(text, i, 1)
                if (c == ")" || c == "]" || c == "}" || (c == ">" && substr(text, i - 1, 1) != "-")) depth--
                if (depth == 0 && i > 1) break
                if (depth == 1 && c == ",") n++
                if (i > 1) inside = inside c
                if (c == "(" || c == "[" || c == "{" || c == "<") depth++
            }
            gsub(/ +$/, "", inside)
            return inside == "" ? 0 : n + (inside !~ /,$/)
        }
        # A column is a character, not a byte: the later bytes of a character do not count.
        function end_clause() { gsub(/[\200-\277]/, "", clause); if (length(clause) > widest) widest = length(clause); clause = "" }
        function end_function() {
            if (name == "") return
            end_clause()
            place = file ":" name
            if (clauses > 8) print "clauses", place, clauses
            if (widest > 200) print "columns", place, widest
            if (parameters(signature) > 6) print "parameters", place, parameters(signature)
            name = ""
        }
        FNR == 1 { end_function(); if (lines > 400) print "lines", file, lines; file = FILENAME }
        { lines = FNR; text = $0; sub(/^ +/, "", text) }
        name == "" && /^ *(pub(\([a-z]+\))? )?(const )?fn [a-z_0-9]+/ {
            indent = $0; sub(/[^ ].*$/, "", indent)
            name = text; sub(/^.*fn /, "", name); sub(/[^a-z_0-9].*$/, "", name)
            signature = text; clauses = 0; widest = 0; clause = ""
            if (text ~ /[{;]$/) end_function()
            next
        }
        name != "" {
            if ($0 == indent "{" || $0 == indent "{}") { end_function(); next }
            if (text ~ /^(requires|ensures)( |$)/) { end_clause(); clauses++; clause = text }
            else if (clauses > 0) { if (text !~ /^\/\//) clause = clause " " text }
            else signature = signature " " text
            if ((clauses == 0 && text ~ /(\{|\{\}|;)$/) || (clauses > 0 && text ~ /};$/)) end_function()
        }
        END { end_function(); if (lines > 400) print "lines", file, lines }')
}

# Prints `proofs CRATE` for each crate with more than four lines of proofs a line of code.
long_proofs() {
    local crate code proofs
    for crate in "$top"/crates/*; do
        case $crate in *_tests) continue ;; esac
        code=$(find "$crate/src" -name '*.rt' -exec cat {} + | wc -l)
        proofs=$(find "$crate/proofs" -name '*.antt' -exec cat {} + 2>/dev/null | wc -l)
        [ "$proofs" -le $((4 * code)) ] || echo "proofs ${crate##*/}"
    done
}

found=$(
    over_limits
    long_proofs
)
# Checks that at most this many are over a limit; if there are more, it prints them.
at_most() {
    local n
    n=$(printf '%s\n' "$found" | grep -c "^$2 ")
    if [ "$n" -le "$3" ]; then
        echo "ok $1: $n"
    else
        echo "FAILED $1: $n, not $3 at most:"
        printf '%s\n' "$found" | grep "^$2 "
    fi
}
at_most 'functions with more than eight clauses' clauses 5
at_most 'functions with a clause of more than 200 columns' columns 0
at_most 'functions with more than six parameters' parameters 10
at_most 'files of more than 400 lines' lines 0
at_most 'crates with more than four lines of proofs a line of code' proofs 6
