# shellcheck shell=sh
# How a program is built and started; sourced by bin/NAME, not run, with `name` the program, `self` that script with no link
# left in its path, and `takes` how long a first build takes.
# A program is built where it is not built yet; only that needs `rt`. What a program says on standard error is passed on, and
# makes the status 1.
# shellcheck disable=SC2154

root=$(CDPATH='' cd -- "$(dirname -- "$self")/.." && pwd -P) || exit 2
program=$root/crates/$name/out/$name

say() { echo "$name: $*" >&2; }

# ---- the kit: asked of rt, and remembered for when there is no rt
find_kit() {
    if rt=$(command -v rt); then
        kit=${RATTLE_HOME:-$(dirname "$(dirname "$(readlink -f "$rt")")")}
        [ -e "$root/target/kit" ] || { mkdir -p "$root/target" && echo "$kit" >"$root/target/kit"; } 2>/dev/null || true
    elif [ -r "$root/target/kit" ]; then
        read -r kit <"$root/target/kit"
    fi
}

stale() { # whether the program is missing or older than a source
    [ ! -x "$program" ] || [ -n "$(find "$root/crates" "$root/crates.txt" -name out -prune -o -newer "$program" \( -name '*.rt' -o -name '*.antt' -o -name crates.txt \) -print | head -n 1)" ]
}

build() { # a line for each crate as it is proved, and what went wrong; `rt run` builds, and then runs with no input and no words
    command -v rt >/dev/null || { say "the program is not built, or older than its sources, and no rt is on the path to build it"; exit 2; }
    say "building: every crate below the program is proved first, which takes $takes the first time"
    mkdir -p "$root/target" || exit 2
    (cd "$root/crates/$name" && rt run) </dev/null 2>&1 >/dev/null | {
        crate='' ended=2
        while IFS= read -r line; do
            printf '%s\n' "$line" >&3
            case $line in
            'crate '*': modules loaded='*' checked=0') crate='' ;; # unchanged
            'crate '*': modules loaded='*) crate=${line#crate } crate=${crate%%:*} ;;
            'logic=proved'*) [ -z "$crate" ] || say "$crate proved" ;;
            'logic=not-proved'*) [ -z "$crate" ] || say "$crate NOT PROVED" ;;
            "rt: running out/$name"*) ended=0 ;;
            esac
        done 3>"$root/target/log"
        [ "$ended" -eq 0 ]
    } || { say "not built: $root/target/log has what rt said"; exit 2; }
    [ -x "$program" ] || { say "rt built no $program"; exit 2; }
    touch "$program"
    rm -f "$root/target/kit"
}

# ---- how the program is started: by the kit's loader, off x86-64 by its emulator too; with no kit, by the system's loader
start_words() {
    for tools in "$kit/toolchain" "$kit/on/$(uname -m)/toolchain"; do
        loader=$tools/lib/ld-linux-x86-64.so.2
        if [ -n "$kit" ] && [ -e "$loader" ]; then
            emulator=$tools/bin/qemu-x86_64
            [ -x "$emulator" ] || emulator=
            return
        fi
    done
    loader=''
    emulator=''
    "$program" </dev/null >/dev/null 2>&1 || { say "this system does not start $program: it needs the kit, or x86-64 Linux with glibc 2.34"; exit 2; }
}

run() { ${emulator:+"$emulator"} ${loader:+"$loader" --library-path "$tools/lib"} "$program" "$@"; }

ready() { # the program is built, and how it is started is known
    kit=
    if stale; then build; fi
    find_kit
    start_words
}

# Standard error goes to a variable, which holds one message at most; standard output goes where it went, or stays closed.
start() { # the program's words: runs it, and ends as it ended
    if (exec 3>&1) 2>/dev/null; then
        { said=$(run "$@" 2>&1 >&3 3>&-); ended=$?; } 3>&1
    else
        said=$(run "$@" 2>&1 >&-); ended=$?
    fi
    # the library ignores the signal of a pipe that nobody reads; where it is not ignored here, it ends this
    if [ "$said" = "$name: standard output: Broken pipe" ]; then kill -s PIPE $$; fi
    if [ -n "$said" ]; then
        printf '%s\n' "$said" >&2
        exit 1
    fi
    exit "$ended"
}
