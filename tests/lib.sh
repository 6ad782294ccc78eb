# Sourced by ./run, ./compare, ./test, ./install, bench/run, station/test and the scripts beside it: the replay program, the library and what they
# are built from, PocketHLE's sources, and how long work is waited for.
root=$(cd "$(dirname "${BASH_SOURCE[0]}")/.." && pwd)

say_version() { printf 'Beonasul %s, traces of version 1\n' "$(cat "$root/VERSION")"; }

# ---- work that is waited for, and stopped with the script

group= child= feeder= ticker=

# A signal that stops the script stops its work too. What the script set for its end (trap .. EXIT) is done as well: only where there is such
# a trap before those of the signals does the shell do it when a signal ends it.
trap : EXIT
for signal in INT TERM HUP; do
    # shellcheck disable=SC2064
    trap "stop_work; trap - $signal; kill -$signal $$" "$signal"
done

stop_work() {
    [ -z "$group" ] || kill -TERM -- "-$group" 2>/dev/null
    # shellcheck disable=SC2086
    [ -z "$child$feeder$ticker" ] || kill $child $feeder $ticker 2>/dev/null
    group= child= feeder= ticker=
}

# in_group COMMAND..: runs the command and all that it starts as one process group, and waits. A shell runs no trap before a command in the
# foreground has ended, so the command is in the background.
in_group() {
    local status
    set -m
    "$@" </dev/null &
    group=$!
    set +m
    wait "$group"
    status=$?
    group=
    return "$status"
}

# Copies lines. Where none comes for eight seconds it says so, that nobody takes the work for stopped. `doing` says what is being done.
with_ticks() {
    local line part= began=$SECONDS status
    while :; do
        line=
        IFS= read -r -t 8 line
        status=$?
        if [ "$status" -eq 0 ]; then
            printf '%s%s\n' "$part" "$line"
            part=
        elif [ "$status" -gt 128 ]; then
            part=$part$line
            printf ' .. %s, %d s\n' "$doing" $((SECONDS - began))
        else
            break
        fi
    done
    [ -z "$part$line" ] || printf '%s%s\n' "$part" "$line"
}

# Whether to say how far the work is: on a terminal, but not beside a pager that draws on the same one.
on_terminal() { [ -t 2 ] && [ ! -p /dev/stdout ]; }

# Says once a second how far file descriptor 3 of this script, a file of $1 bytes, has been read.
tell_reading() {
    local position
    while sleep 1; do
        position=$(sed -n 's/^pos:[[:space:]]*//p' "/proc/$$/fdinfo/3" 2>/dev/null)
        [ -z "$position" ] || printf '\rreplayed %d %% ' $((100 * position / $1)) >&2
    done
}

# ---- the replay program and the library

# The crates of crates.txt, and what a crate builds on there; `NAME staticlib: ..` is a static library.
crate_names() { sed -n 's/^\([a-z_0-9]*\)\( [^:]*\)\{0,1\}:.*/\1/p' "$root/crates.txt"; }
crates_below() { sed -n "s/^$1\( [^:]*\)\{0,1\}://p" "$root/crates.txt" | tr ' ' '\n' | grep -xF -f <(crate_names); }

# Sets `replay` to the path of the replay program. REPLAY names another program to run in its place. Where ./install has put these scripts there
# are no sources, and the program lies in the folder bin.
find_replay() {
    if [ -n "${REPLAY:-}" ]; then
        [ -x "$REPLAY" ] || { printf 'REPLAY=%s cannot be run\n' "$REPLAY" >&2; return 1; }
        replay=$(realpath "$REPLAY")
        printf '%s stands in for the replay program\n' "$REPLAY" >&2
    elif [ -d "$root/crates" ]; then
        replay=$root/target/bin/replay
        find_built "$replay" "the replay program" run replay
    else
        replay=$root/../../bin/replay
        [ -x "$replay" ] || { printf 'there is no program %s\n' "$replay" >&2; return 1; }
    fi
}

# Sets `library` to the path of the static library that C and Rust link. BEONASUL_LIB names another folder that has one.
find_library() {
    library=${BEONASUL_LIB:-$root/target/staticlib}/libstation.a
    if [ -z "${BEONASUL_LIB:-}" ]; then
        find_built "$library" "the static library" lib station_c
    elif [ ! -f "$library" ]; then
        printf 'BEONASUL_LIB: there is no %s\n' "$library" >&2
        return 1
    fi
}

# find_built FILE WHAT COMMAND NAME: a file that is there and not older than its sources is taken as it is: nothing is locked, written or asked
# of the kit. So is a program that `rt ci` or another command left in the folder of the crate NAME. Otherwise `rt COMMAND` there proves the crate and
# what it builds on, and makes the file.
find_built() {
    local lacks= kits
    is_new "$1" && return
    kits=$(made_of "$4")
    [ "$3" = run ] && is_new "$kits" && take_made "$kits" "$1" "$kits" 2>/dev/null && return
    if ! command -v rt >/dev/null; then
        lacks="the Rattle kit's command rt is not on the path (README.md, What you need)"
    elif ! { mkdir -p "${1%/*}" && : >>"$root/target/prove.lock"; } 2>/dev/null; then
        lacks="$root cannot be written"
    fi
    if [ -z "$lacks" ]; then
        prove "$1" "$3" "$4" && [ -e "$1" ]
    elif [ -e "$1" ]; then
        printf 'The sources are newer than %s. It is used as it is: %s\n' "$2" "$lacks" >&2
    else
        printf '%s is not built yet, and it cannot be built here: %s\n' "$2" "$lacks" >&2
        return 1
    fi
}

# Status 0 if the file is there and nothing of the sources is newer. The folders `out`, where the kit keeps what it makes, do not count.
is_new() {
    [ -e "$1" ] &&
        [ -z "$(cd "$root" && find crates crates.txt -path 'crates/*/out' -prune -o \( -path 'crates/*/*' -o -type f \) -newer "$1" -print -quit 2>&1)" ]
}

# The file that the kit makes of a crate: a program, or a static library.
made_of() { if [ -e "$root/crates/$1/src/main.rt" ]; then echo "$root/crates/$1/out/$1"; else echo "$root/crates/$1/out/lib$1.a"; fi; }

# take_made MADE FILE OLD: the file MADE becomes FILE, of the age of the file OLD.
take_made() { mkdir -p "${2%/*}" && cp -- "$1" "$2.$$" && touch -r "$3" -- "$2.$$" && mv -f -- "$2.$$" "$2"; }

# prove FILE COMMAND NAME: `rt COMMAND` for the crate NAME, which proves it and what it builds on; FILE is then what it made. Says a line for each
# crate that is proved now, and a line at least every ten seconds; nothing where all are proved already.
prove() {
    local log status
    log=$(mktemp) || return 1
    in_group prove_shown "$log" "$@"
    status=$?
    if [ "$status" -ne 0 ]; then
        tail -n 20 "$log" >&2
        mv "$log" "$root/target/$3.log"
        echo "$3 is not proved; target/$3.log has all that rt said" >&2
        return 1
    fi
    rm -f "$log"
}

prove_shown() {
    prove_alone "$2" "$3" "$4" 9>"$root/target/prove.lock" 2>&1 | tee "$1" | show_progress "$4"
    return "${PIPESTATUS[0]}"
}

# What is made has the age of the work's begin: a source that is changed meanwhile is newer. `rt run` also runs the program, on no input. A program
# of the kit asks for x86-64-v2, and says so where the processor lacks it; a library could not say it, so it is made for every x86-64.
prove_alone() {
    local status words=()
    [ "$2" != lib ] || words=(--cpu=x86-64)
    ! command -v flock >/dev/null || flock -n 9 || { echo "rt: another command proves it: waiting"; flock 9; }
    : >"$1.begin"
    (cd "$root/crates/$3" && rt "$2" "${words[@]}") && take_made "$(made_of "$3")" "$1" "$1.begin"
    status=$?
    rm -f "$1.begin"
    return "$status"
}

# The kit says which crate it begins, and after the lines of its functions whether it is proved. A crate's number is its place among those below.
show_progress() {
    local line crate= began=0 told= total number doing=proving
    total=$(crates_below "$1" | grep -c .)
    [ -d "$root/crates/$1/out" ] || tell_wait "$1"
    with_ticks | while IFS= read -r line; do
        case $line in
        'rt: chose '*' for '*) crate=${line##* for } began=$SECONDS ;;
        'logic=proved '*)
            tell_wait "$1"
            number=$({ crates_below "$1"; echo "$1"; } | grep -nxF -- "$crate" | sed 's/:.*//')
            printf '  %2d of %d: %s proved (%d s)\n' "${number:-0}" $((total + 1)) "$crate" $((SECONDS - began)) >&2
            ;;
        ' .. '* | 'rt: another command '* | 'rt: waiting for '* | *': another copy of the repository '*) tell_wait "$1"; printf '  %s\n' "${line#rt: }" >&2 ;;
        esac
    done
}

tell_wait() {
    [ -n "$told" ] || printf '%s is proved and built first, once: from nothing this takes minutes.\n' "$1" >&2
    told=1
}

# Status 0 if these bytes can begin a trace: an opcode, below 256 and not 0, in four bytes, and the number of its words in four more.
can_begin() { [ $# -eq 8 ] && [ "$1" -gt 0 ] && [ "$2 $3 $4" = "0 0 0" ]; }

# replay_trace TRACE OUT: the answers to a trace (- for standard input) go into the file OUT. Otherwise status 2, and `reason` says why.
replay_trace() {
    local name=$1 bytes=0 first status
    [ "$1" != - ] || name="standard input"
    if [ "$1" = - ]; then exec 3<&0; else exec 3<"$1"; fi
    first=$(dd bs=1 count=8 <&3 2>/dev/null | od -An -v -tu1)
    # shellcheck disable=SC2086
    if [ -z "$first" ]; then
        reason="$name is empty: no trace"
        return 2
    elif ! can_begin $first; then
        reason="$name is no trace (docs/TRACE.md)"
        return 2
    fi
    if [ "$1" != - ] && [ -f "$1" ]; then
        bytes=$(stat -L -c %s -- "$1")
        exec 3<"$1"
    else
        # What was read of it goes before the rest.
        # shellcheck disable=SC2059,SC2086
        exec 4< <(printf "$(printf '\\%03o' $first)" && exec cat <&3)
        feeder=$!
        exec 3<&4 4<&-
    fi
    "$replay" <&3 >"$2" &
    child=$!
    ! on_terminal || [ "$bytes" -lt 1000000 ] || { tell_reading "$bytes" & ticker=$!; }
    wait "$child"
    status=$?
    child=
    [ -z "$ticker" ] || printf '\r\033[K' >&2
    stop_work
    exec 3<&-
    [ "$status" -eq 0 ] || { reason="the replay program ended with status $status on $name"; return 2; }
}

# ---- the comparison with the Rust

# Sets POCKET_GLES_SRC to the folder of PocketHLE's sources. They are sought in shared/docs/src beside the repository or a folder above.
# Status 3, with the reason in `reason`, if the comparison cannot be built here.
find_sources() {
    local source=${POCKET_GLES_SRC:-} up file
    for up in .. ../.. ../../..; do
        [ -n "$source" ] || [ ! -d "$root/$up/shared/docs/src" ] || source=$root/$up/shared/docs/src
    done
    source=${source:-$root/../shared/docs/src}
    command -v cargo >/dev/null || { reason="there is no cargo"; return 3; }
    for file in consts context fixed matrix raster texture; do
        if [ ! -f "$source/crates/pocket-gles/src/$file.rs" ]; then
            reason="PocketHLE's $file.rs is not below $source; POCKET_GLES_SRC names another folder"
            return 3
        fi
    done
    POCKET_GLES_SRC=$(realpath "$source")
    export POCKET_GLES_SRC
}

# Sets `compare` to the path of the comparison. Status 3 as above.
find_compare() {
    find_sources || return
    (cd "$root/tests/compare" && cargo build --quiet --release --offline --locked) || return 1
    compare=$root/tests/compare/target/release/compare
}
