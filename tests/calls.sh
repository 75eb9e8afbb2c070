# shellcheck shell=bash
# What tests/run and tests/join have in common; sourced, not run. Files are made in the folder $room; `told` counts the calls
# that went as they must.
# shellcheck disable=SC2154

shown() { # file, line number: that line, cut to what a screen holds
    local text end=''
    text=$(sed -n "$2{p;q;}" "$1" | cut -c 1-100 | tr '\t' ' ')
    if [ "$2" -gt "$(wc -l <"$1")" ]; then end="${text:+ }(no line${text:+ feed})"; fi
    printf '%s\n' "$text$end"
}
place() { # what was expected, what came, which differ: the first line that does
    local shorter=$1 longer=$2
    if [ "$(wc -c <"$1")" -gt "$(wc -c <"$2")" ]; then shorter=$2 longer=$1; fi
    if cmp -s "$shorter" <(head -c "$(wc -c <"$shorter")" "$longer"); then
        echo $(($(wc -l <"$shorter") + 1)) # one of them ends too soon
    else
        cmp "$1" "$2" | sed -n 's/.*line \([0-9][0-9]*\).*/\1/p' || true
    fi
}
went() { # a command: what it prints and says, and its status
    local status=0
    "$@" >"$room/got" 2>"$room/said" || status=$?
    echo "$status" >"$room/status"
}
must() { # what, status, the file that it prints, what it says: after `went`
    local at
    if [ "$(cat "$room/status")" != "$2" ] || ! cmp -s "$3" "$room/got" || [ "$(cat "$room/said")" != "$4" ]; then
        echo "$1: status $(cat "$room/status"), wanted $2; it printed $(wc -l <"$room/got") lines, wanted $(wc -l <"$3")" >&2
        if ! cmp -s "$3" "$room/got"; then
            at=$(place "$3" "$room/got")
            echo "  line $at: $(shown "$room/got" "$at"), wanted $(shown "$3" "$at")" >&2
        fi
        echo "  it said: $(head -n 3 "$room/said")" >&2
        echo "  wanted:  $4" >&2
        exit 1
    fi
    told=$((told + 1))
}
