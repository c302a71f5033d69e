#!/usr/bin/env bash
# What the documents name exists: files, clauses, calls, definitions and crates. The map of crates agrees with crates.txt.
# shellcheck source=checks/common.sh
. "$(dirname "$0")/common.sh"

# All words of the code, the definitions and the proofs.
find "$top/crates" -name out -prune -o \( -name '*.rt' -o -name '*.antt' \) -print0 | xargs -0 cat | tr -c "A-Za-z0-9_'-" '\n' | sort -u >words
find "$top" \( -name out -o -name .git \) -prune -o -type f -print | sed "s|^$top/|/|" | sort >files

# Each named clause of a function, as `FUNCTION.CLAUSE`.
find "$top"/crates/*/src -name '*.rt' -print0 | xargs -0 awk '
    match($0, /(^| )fn [a-z_0-9]+/) { name = substr($0, RSTART, RLENGTH); sub(/.*fn /, "", name) }
    match($0, /(ensures|requires) [a-z_0-9]+ \{/) { clause = substr($0, RSTART, RLENGTH); split(clause, part, " "); print name "." part[2] }' |
    sort -u >clauses

# Prints the code spans of a document, without its blocks of commands and output.
spans() {
    awk '/^```/ { block = !block; next } !block && !/^    / {
        for (n = split($0, piece, "`"); n > 1; n--) if (n % 2 == 0) print piece[n] }' "$1"
}

# Prints those of the names on standard input that do not exist. A file is named by the end of its path.
missing() {
    awk '
        FILENAME == "words" { words[$0]; next }
        FILENAME == "clauses" { clauses[$0]; next }
        FILENAME == "files" {
            path = substr($0, 2); paths[path]
            for (rest = path; sub(/\/[^\/]*$/, "", rest);) paths[rest]
            for (rest = path; rest != "";) { ends[rest]; if (!sub(/^[^\/]*\//, "", rest)) rest = "" }
            next
        }
        /[^A-Za-z0-9_.:\/-]/ || /^\./ || /\.\./ || /NAME/ || /^$/ { next }
        /^crates\// { if (!($0 in paths) && !/\/out\//) print; next }
        /\.(rt|antt|sh|edit|md)$/ { if (!($0 in ends)) print; next }
        /^[a-z].*\.[a-z]/ { if (!($0 in clauses)) print; next }
        /^[A-Z].*::/ || /^[A-Z].*\./ || /^[A-Z].*[a-z]/ {
            for (n = split($0, part, /[:.]+/); n > 0; n--) if (part[n] != "" && !(part[n] in words)) { print; break }
            next
        }
        /^btr_/ { if (!(("crates/" $0) in paths) && !($0 in words)) print; next }
        /^[a-z].*_[a-z]/ { if (!($0 in words)) print }' words clauses files -
}

# What is written for the reader and is no name of the repository: a pattern, and a call of the standard library.
known='crates.txt Function.clause for_each_mut turn.added expected.txt'
for document in "$top"/README.md "$top"/docs/*.md; do
    found=$(spans "$document" | sort -u | missing | while IFS= read -r name; do
        case " $known " in *" $name "*) ;; *) echo "$name" ;; esac
    done)
    expect "$(basename "$document"): what it names exists" "$found" ''
done

# The crates of crates.txt, but those of tests, and those of the map, with the number of their layer, the highest first.
sed -n 's/^\(btr_[a-z]*\)\( [^:]*\)*:.*/\1/p' "$top/crates.txt" | sort >listed
awk '/^## The map/ { map = 1 } /^\| crate/ { map = 0 }
    map && /^    / { if (match($0, /^    [a-z]/)) layer++; planned = /\(planned\)/
        for (n = split($0, word, " "); n > 0; n--) if (word[n] ~ /^btr_[a-z]+$/ && !planned) print word[n], layer }' \
    "$top/docs/ARCHITECTURE.md" | sort >layers
expect 'the map has the crates of crates.txt' "$(cut -d ' ' -f 1 layers)" "$(cat listed)"
expect 'the table has the crates of crates.txt' \
    "$(sed -n 's/^| \(btr_[a-z]*\) | .*/\1/p' "$top/docs/ARCHITECTURE.md" | sort)" "$(cat listed)"
expect 'no crate of the map stands on a layer above its own' "$(awk '
    FILENAME == "layers" { layer[$1] = $2; next }
    /^btr_/ { name = $1; sub(":", "", name); if (name in layer) for (n = 2; n <= NF; n++) if ($n in layer && layer[$n] < layer[name]) print name, $n }
    ' layers "$top/crates.txt")" ''
