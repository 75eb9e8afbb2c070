# What the scripts that try edits have in common; sourced, not run.
# An edit has the form of rt's own, and a line `at: PLACE`: where it is refused.

# replaces the one place of $2 in file $1 by $3; fails if there is none, or more than one
replace() {
    OLD=$2 NEW=$3 awk '
        { text = text $0 "\n" }
        END {
            old = ENVIRON["OLD"]; at = index(text, old)
            if (old == "" || !at) exit 3
            rest = substr(text, at + length(old))
            if (index(rest, old)) exit 4
            printf "%s%s%s", substr(text, 1, at - 1), ENVIRON["NEW"], rest
        }' "$1" >"$1.edited" && mv "$1.edited" "$1"
}

# applies the edit in file $2 to the crate in folder $1, to files of its folders $3; prints what is wrong with it
apply() {
    file='' old='' pairs=0
    while IFS= read -r line || [ -n "$line" ]; do
        case $line in
        'file: '*) file=${line#file: } ;;
        'old: '*) old=${line#old: } ;;
        'new:'*)
            new=${line#new:}
            case " $3 " in *" ${file%%/*} "*) ;; *) echo "'$file' is not a file of $3" && return 1 ;; esac
            [ -f "$1/$file" ] || { echo "no file $file" && return 1; }
            replace "$1/$file" "$old" "${new# }" || { echo "the old text is not once in $file" && return 1; }
            old='' pairs=$((pairs + 1))
            ;;
        esac
    done <"$2"
    [ "$pairs" -gt 0 ] || { echo 'it has no pair of old and new' && return 1; }
}

# sets `at` to the place that the edit in file $2 names; prints what is wrong with it or with the log $1 of its check. The log
# has to tell of a fact that fails: an error or an open goal, but for an error that only follows from another, a term that is not
# found and a limit of the prover. It may tell of no name that is gone: goals are named by the code, so beside a gone name an open
# goal may be true, and have lost its answer alone
at_of() {
    at=$(sed -n 's/^at: //p' "$2")
    [ -n "$at" ] || { echo 'it does not say where it is refused' && return 1; }
    grep -q '^logic=not-proved' "$1" || { echo "the prover did not run: $(grep -m 1 'error' "$1" || tail -n 1 "$1")" && return 1; }
    grep -m 1 -e 'met a bound' -e 'resource limit' -e 'antt ran out of' -e 'outgrew the memory limit' -e 'stopped at the step limit' "$1" && return 1
    grep -e '^[^ ]*: error' -e '^note: .*it is not proved that' "$1" | grep -v -e ' not checked: ' -e 'exports no' >"$1.told"
    grep -m 1 -e 'not in scope' -e 'has no field' -e 'is no name' -e 'can be named' "$1.told" && return 1
    is_fact "$1.told" || { echo "no fact fails: $(head -n 1 "$1.told")" && return 1; }
}

# whether a line of file $1 tells of a fact that fails: such an error names what it is in, and one of a text that cannot be read
# does not
is_fact() {
    grep -e '^note: ' -e ': error: `[^`]*`: ' "$1" | grep -q -v -e 'no occurrence of' -e 'no equation of' -e 'gave up at one of its limits'
}

# how many checks at a time: as many as there are processors, and 3 GB of memory for each
at_once() {
    n=$(nproc 2>/dev/null || getconf _NPROCESSORS_ONLN)
    free=$(awk '/^MemAvailable:/ { print int($2 / 3000000) }' /proc/meminfo 2>/dev/null)
    [ "${free:-$n}" -ge "$n" ] || n=$free
    [ "$n" -ge 1 ] || n=1
    echo "$n"
}

# copies the folder $1 of what a check kept to $2, what was proved by links: a check replaces such a file, and changes none
linked() {
    cp -Rl "$1" "$2" || return 1
    find "$2" -type f ! -name '*.oantt' -exec sh -c 'for f; do cp -p "$f" "$f-" && mv "$f-" "$f" || exit 1; done' sh {} +
}

# true the first time that it is called with $1: of several that go through one list, one takes each
taken() { mkdir "$work/taken.$1" 2>/dev/null; }

# the crate, the folder and the name of the edit in file $1
key() { printf '%s\n' "${1#"$root"/crates/}" | sed 's|\.edit$||; s|/|.|g'; }

# runs $2 and on for the edit in file $1; what it prints goes to KEY.said in folder $work if it succeeds, else to KEY.wrong
note() {
    name=$work/$(key "$1")
    shift
    if "$@" >"$name.tried"; then mv "$name.tried" "$name.said"; else mv "$name.tried" "$name.wrong"; fi
}

# tells of the edits in files $2 and on, and counts them for $1; fails if one was not refused
tell() {
    title=$1 refused=0 failed=0
    shift
    for edit in "$@"; do
        name=$(key "$edit")
        if [ -s "$work/$name.said" ]; then
            echo "$name: $(cat "$work/$name.said")"
            refused=$((refused + 1))
        else
            echo "$name: FAILED: $(cat "$work/$name.wrong" 2>&1)"
            failed=$((failed + 1))
        fi
    done
    echo "$title: $refused refused, $failed failed"
    [ "$failed" -eq 0 ] && [ "$refused" -gt 0 ]
}
