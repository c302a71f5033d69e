#!/usr/bin/env bash
# The commands of the documents, as they are printed.
#
# A fenced block that begins with ```sh holds commands; the block that begins with ```text after it, with only blank lines
# between, holds what they write. The pairs of one document run in order, in one folder, with `btr_run` on the PATH. A
# block of commands without such output is not run.
# shellcheck source=checks/common.sh
. "$(dirname "$0")/common.sh"

mkdir bin
ln -s "$program" bin/btr_run
PATH=$folder/bin:$PATH

# Cuts the pairs of a document into files: for pair N its commands in N.command and its output in N.wanted.
cut_pairs() {
    awk -v to="$2/" '
        /^```sh[ \t]*$/ { kind = "sh"; held = ""; next }
        /^```text[ \t]*$/ { kind = have ? "text" : "skip"; if (have) { n++; printf "%s", held >(to n ".command"); printf "" >(to n ".wanted") } next }
        /^```[ \t]*$/ && kind != "" { have = (kind == "sh"); kind = ""; next }
        kind == "sh" { held = held $0 "\n"; next }
        kind == "text" { print >(to n ".wanted"); next }
        kind == "" && !/^[ \t]*$/ { have = 0 }' "$1"
}

# Runs the pairs of a document, and checks what each writes: PAGE NAME.
run_pairs() {
    local cut=$folder/$2.cut n=1 title
    mkdir "$cut" "$folder/$2.run"
    ln -s "$top/examples" "$folder/$2.run/examples"
    cut_pairs "$1" "$cut"
    cd "$folder/$2.run" || exit 1
    while [ -f "$cut/$n.command" ]; do
        title="$2: $(head -n 1 "$cut/$n.command" | cut -c 1-80)"
        sh "$cut/$n.command" >"$cut/$n.found" 2>&1 </dev/null
        expect "$title" "$(cat "$cut/$n.found")" "$(cat "$cut/$n.wanted")"
        n=$((n + 1))
    done
    cd "$folder" || exit 1
    [ $n -gt 1 ] || skip "$2" 'it has no block of commands with their output'
}

run_pairs "$top/README.md" README.md
