#!/usr/bin/env bash
# `distil` with 1, 2, 4 and 16 workers, on outputs with enough points that several threads compute one of them: what it leaves is the
# same for any number of workers, also after late data in the middle. And no run has more threads than workers.
# shellcheck source=checks/common.sh
. "$(dirname "$0")/common.sh"

other=22222222-2222-4222-8222-222222222222
everything='-1152921504606846976 3458764513820540928'

# The id of an output, by its number.
output() {
    printf '33333333-3333-4333-8333-%012d' "$1"
}

# Rows of a stream: ID COUNT FIRST STEP.
rows() {
    awk -v id="$1" -v count="$2" -v first="$3" -v step="$4" 'BEGIN {
        for (k = 0; k < count; k++) printf "%s,%d,%d\n", id, first + k * step, (k * 7919) % 10007 - 5000 }'
}

# Makes a store of the rows in the file `rows.csv`, with outputs: STORE. Each line of standard input is the words of an output, the first
# line those of the first one.
store() {
    play "$1" format --blocks 1000000 </dev/null
    play "$1" load <rows.csv
    awk '{ printf "distiller 33333333-3333-4333-8333-%012d %s\n", NR, $0 }' >lines
    play "$1" live <lines
    [ "$status" = 0 ] || echo "FAILED to make a store: $(ended)"
}

# ---- what `distil` leaves

# Two streams over the same 40 ms, and what is late of them: 15,000 rows in the middle, and a range that is deleted there.
{ rows $id 40000 0 1000; rows $other 20000 0 2000; } >rows.csv
{ rows $id 15000 10000500 1000; rows $other 5000 15000250 2000; } >late.csv
echo "delete $id 12000000 13000000" >gone

# Runs `distil` on a copy of a store, adds what is late, and runs it again: STORE WORKERS. The copy is the file STORE.WORKERS, and what
# `distil` said is in STORE.WORKERS.said.
distil() {
    cp "$1" "$1.$2"
    play "$1.$2" distil --workers "$2" </dev/null
    mv out "$1.$2.said"
    play "$1.$2" load <late.csv
    play "$1.$2" live <gone
    play "$1.$2" distil --workers "$2" </dev/null
    cat out >>"$1.$2.said"
}

# Runs `distil` on a store with 1, 2, 4 and 16 workers, and prints with which of them the file with this ending is another one than with
# one worker: STORE ENDING.
distil_all() {
    local workers
    for workers in 1 2 4 16; do
        distil "$1" "$workers"
        if [ "$2" = .answers ]; then
            play "$1.$workers" ask <questions
            mv out "$1.$workers.answers"
        fi
        cmp -s "$1.1.said" "$1.$workers.said" || echo "$workers workers say something else"
        cmp -s "$1.1$2" "$1.$workers$2" || echo "$workers workers leave something else"
    done
}

# How many points an output has: STORE NUMBER.
points() {
    echo "range $(output "$2") $everything latest" >line
    play "$1" ask <line
    head -n 1 out
}

store one <<END
mean 50000 0 $id
END
expect 'one output with 1, 2, 4 and 16 workers' "$(distil_all one ''), $(points one.16 1)" ', ok 2 53000'

store two <<END
hold 3000 0 $id $other
delta 20000 0 $(output 1)
END
expect 'two inputs, and an output of the output' "$(distil_all two ''), $(points two.16 1), $(points two.16 2)" ', ok 2 53000, ok 2 52998'

# Outputs of one level are landed in any order, so the answers are compared, of both versions.
store many <<END
sum 50000 5 $id
minus 0 0 $id $other
greatest 10000 0 $other
hold 5000 0 $(output 1) $(output 2)
count 100000 0 $(output 3)
END
for number in 1 2 3 4 5; do
    for version in 1 2; do
        echo "info $(output "$number") $version"
        echo "range $(output "$number") $everything $version"
    done
done >questions
expect 'several outputs on two levels' "$(distil_all many .answers), $(grep -c . many.16.answers)" ', 315540'

# ---- how many threads a run has

if ! [ -r "/proc/$$/stat" ]; then
    skip 'the threads of a run' 'there is no /proc'
    exit 0
fi

# The greatest number of threads that was seen of `distil` on a copy of a store: STORE WORKERS. A thread that is ending does not count: who
# waited for it has gone on, and may start another one, before the system takes it off its list. It has the flag 4.
threads() {
    local running stat words now most=0
    cp "$1" device
    "$program" device distil --workers "$2" </dev/null >out 2>err &
    running=$!
    while kill -0 "$running" 2>/dev/null; do
        now=0
        for stat in "/proc/$running/task/"*/stat; do
            { read -r -a words; } 2>/dev/null <"$stat" || continue
            [ $((${words[8]:-4} & 4)) != 0 ] || now=$((now + 1))
        done
        [ "$now" -le "$most" ] || most=$now
    done 2>/dev/null
    wait "$running" || most="status $?"
    echo "$most"
}

# Whether a run with WORKERS workers had more threads than one with one worker, and not too many: STORE WORKERS.
shared() {
    local most
    most=$(threads "$1" "$2")
    if [ "$most" -gt "$alone" ] && [ "$most" -lt $((alone + $2)) ]; then echo yes; else echo "$most threads, $alone with one worker"; fi
}

rows $id 400000 0 1000 >rows.csv
store long <<END
mean 50000 0 $id
sum 50000 0 $(output 1)
END
store wide <<END
mean 50000 0 $id
sum 50000 0 $id
least 50000 0 $(output 1)
greatest 50000 0 $(output 2)
END
alone=$(threads long 1)
expect 'one worker has one thread' "$alone, $(threads wide 1)" "1, 1"
expect 'an output is shared by 2 workers' "$(shared long 2)" yes
expect 'an output is shared by 4 workers' "$(shared long 4)" yes
expect 'an output is shared by 16 workers' "$(shared long 16)" yes
expect 'two outputs are shared by 4 workers' "$(shared wide 4)" yes
expect 'two outputs are shared by 5 workers' "$(shared wide 5)" yes
