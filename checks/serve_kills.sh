#!/usr/bin/env bash
# `serve` is killed after each of a thousand replies: what was answered is there, and at most the one entry more whose line was sent.
# shellcheck source=checks/common.sh
. "$(dirname "$0")/common.sh"

if ! has mkfifo; then
    skip 'serve that is killed' 'mkfifo is missing'
    exit 0
fi
trap '' PIPE
mkfifo lines replies
"$program" empty format --blocks 8192 </dev/null >out 2>err
printf 'create %s\n' "$id" | "$program" empty live >out 2>err

# Serves one line that adds a point, and waits for its reply: `version` is then the version that it made, or what came instead. Then the
# process is killed; half the times another such line was sent before.
serve_and_kill() {
    "$program" device serve <lines >replies 2>err &
    server=$!
    exec 3>lines 4<replies
    printf 'insert %s %d 1\n' "$id" "$1" >&3
    reply=none
    read -r -t 5 reply <&4
    version=${reply#ok }
    version=${version% 0}
    [ "$2" = 0 ] || printf 'insert %s %d 1\n' "$id" "$1" >&3
    kill -KILL "$server"
    exec 3>&- 4<&-
    wait "$server" 2>>err
}

wrong=
RANDOM=11
for store in 1 2 3 4 5 6 7 8 9 10; do
    cp empty device
    last=0
    more=0
    for ((k = 0; k < 100; k++)); do
        was=$more
        more=$((RANDOM % 2))
        serve_and_kill "$k" "$more"
        case $version in
            *[!0-9]* | '') wrong="store $store: after $last answers came [$reply]" && break 2 ;;
        esac
        # the version before this one is the last that was answered, or one more if a line was sent after that
        if [ "$version" -le "$last" ] || [ "$version" -gt $((last + 1 + was)) ]; then
            wrong="store $store: version $version came after $last" && break 2
        fi
        last=$version
    done
    play device check </dev/null
    case $(ended) in
        "0: stands $((last + 1))/" | "0: stands $((last + 2))/") ;;
        *) wrong="store $store: after version $last, check: $(ended)" && break ;;
    esac
done
expect 'a thousand kills, each after a reply' "$wrong" ''
