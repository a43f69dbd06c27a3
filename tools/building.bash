# What ./prove and tools/lib share: they prove the crates below $goal and build them as libraries, side by side where
# there is a place for it, and tell how far they are. tools/current.bash is read before; the file that gets what rt
# prints is $log.

# Where libraries are built side by side: out of the sight of rt ci, as what rt itself sets aside.
rooms=$git_folder/carbink-rooms
# Has a file for each crate that is worked at.
at_work=$here/build/at-work
# The crates in the order in which they are built, a line for each, behind its level.
order=$(levels_of "$goal" | LC_ALL=C sort -s -n -k 1,1)

seconds() { printf '%(%s)T' -1; }

minutes() {
    local count=$((($(seconds) - began) / 60))
    [ "$count" = 1 ] && echo "1 minute so far" || echo "$count minutes so far"
}

# Tells what became of crate $1.
tell() {
    local number=0 name
    while read -r _ name; do
        number=$((number + 1))
        [ "$name" != "$1" ] || say "crate $number of $(wc -l <<<"$order"), $1: $2, $(minutes)"
    done <<<"$order"
}

# Tells once a minute what is worked at.
tell_on() {
    local names
    while sleep 60 >/dev/null 2>&1 9>&-; do
        names=$(find "$at_work" -type f -printf '%f ')
        names=${names% }
        say "at work${names:+ on $names}, $(minutes)"
    done
}

# Builds the library whose folder this is, named $1, with $2 processors.
build_here() {
    local status
    tell "$1" "begun"
    : >"$at_work/$1"
    rt lib --jobs "$2" >>"$log" 2>&1
    status=$?
    rm -f "$at_work/$1"
    [ "$status" != 0 ] || tell "$1" "proved"
    return "$status"
}

# Builds the library $1 with $2 processors, in a folder of its own, over the libraries below it: rt
# lets one run at a time into a crate and those below it, so crates over one library would wait. What
# it kept and made is left there for put_back.
build_apart() {
    local room=$rooms/$1 below part
    mkdir -p "$room/crates" "$here/crates/$1/out" || return
    while read -r _ below; do
        grep -E "^$below( [^:]*)?:" "$here/crates.txt" >>"$room/crates.txt" || return
        mkdir -p "$room/crates/$below/out" || return
        for part in src specs proofs; do
            [ ! -d "$here/crates/$below/$part" ] || cp -a "$here/crates/$below/$part" "$room/crates/$below" || return
        done
        [ "$below" = "$1" ] || cp -al "$here/crates/$below/out/rlib" "$room/crates/$below/out" || return
    done < <(levels_of "$1")
    mv -T "$here/crates/$1/out" "$room/crates/$1/out" || return
    cd "$room/crates/$1" && build_here "$1" "$2"
}

# Gives the crates what was built apart, also by a call that was cut off.
put_back() {
    local room crate
    for room in "$rooms"/*; do
        crate=${room##*/}
        [ ! -d "$room" ] || [ -e "$here/crates/$crate/out" ] || mv -T "$room/crates/$crate/out" "$here/crates/$crate/out"
    done
    rm -rf "$rooms"
}

# The libraries of level $1. The program is none.
of_level() { awk -v level="$1" '$1 == level && $2 != "cb_app" { print $2 }' <<<"$order"; }

# Builds the libraries, those of a level side by side. It holds rt's own locks on the crates meanwhile. What fails here is left to the run that follows, which says why.
build_libraries() (
    processors=$(nproc)
    export here rooms at_work log order began speaker
    export -f build_apart build_here levels_of tell say minutes seconds
    for crate in $(printf '%s\n' "${crates[@]}" | LC_ALL=C sort); do
        exec {lock}<"$here/crates/$crate" && flock "$lock" || return
    done
    put_back
    for ((level = 1; level <= ${#crates[@]}; level++)); do
        mapfile -t names < <(of_level "$level")
        [ ${#names[@]} -gt 0 ] || break
        printf '%s\n' "${names[@]}" | xargs -P "$processors" -I{} \
            bash -c 'build_apart "$@"' _ {} $(((processors + ${#names[@]} - 1) / ${#names[@]}))
        failed=$?
        put_back
        [ "$failed" = 0 ] || return
    done
)

# Whether there is a place to build apart: libraries come there, and back, by their names alone, and so
# on one disk (a worktree's state may lie on another one).
has_rooms() { [ -d "$git_folder" ] && [ "$(stat -c %d "$git_folder")" = "$(stat -c %d "$here/crates")" ]; }

# Where there is none: one library after the other.
build_in_turn() {
    local name
    for name in "${crates[@]}"; do
        [ "$name" = cb_app ] || (cd "$here/crates/$name" && build_here "$name" "$(nproc)") || return
    done
}

# Builds all of them.
build_all() { if has_rooms; then build_libraries; else build_in_turn; fi; }

# Runs the command, and tells once a minute meanwhile how far it is. It is a group of processes of its own, which an
# interrupt of this call ends as a whole.
work_apart() {
    local worker status signal
    : >"$log"
    rm -rf "$at_work" && mkdir -p "$at_work" || return
    set -m
    work_and_tell "$@" </dev/null &
    worker=$!
    set +m
    for signal in HUP INT TERM; do trap "cut_off $worker $signal" "$signal"; done
    wait "$worker"
    status=$?
    trap - HUP INT TERM
    kill -s TERM -- "-$worker" 2>/dev/null
    rm -rf "$at_work"
    return "$status"
}

work_and_tell() {
    local teller status
    tell_on &
    teller=$!
    "$@"
    status=$?
    kill "$teller"
    return "$status"
}

# Ends the work, and this call by the signal that came.
cut_off() {
    trap - HUP INT TERM
    kill -s TERM -- "-$1"
    wait "$1" 2>/dev/null
    put_back
    rm -rf "$at_work"
    say "interrupted, $(minutes): what was proved is kept, and ${0##*/} goes on from there"
    kill -s "$2" $$
}

# Takes the lock of those who build here. A second call waits for the first one.
take_lock() {
    exec 9>"$here/build/lock" || return
    flock -n 9 || { say "another call is at work here: waiting for it" && flock 9; }
}
