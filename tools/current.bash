# What the launcher, ./prove and the tools share: where the proved program and the kept trial build lie, and whether they are
# current. The folder of the repository is $here. The sources are those of the crate $goal and of the crates below it, and
# who says what is said is $speaker; both are set before this is read, as cb_app and carbink for the program.

version=0.14
program=$here/build/carbink
# A trial build that the launcher kept. It is compiled with checks, and not proved.
trial=$here/build/trial
# Where the tree can't be written a trial build is kept below the user's cache, in a folder that is named by the sum of
# the sources; what stands for this tree there is a link to the folder. Nothing where there is no cache.
cache=${XDG_CACHE_HOME-}
[[ $cache = /* ]] || cache=${HOME:+$HOME/.cache}
cache=${cache:+$cache/carbink}
cached=$cache/at${here//\//%}
# Beside each of the two stands what it was built from: in .sources a sum of the sources and the toolchain's name, in
# .times the sizes and times of both. Where the times stand no text is read. Beside the proved program stands the
# processor that it was built for, and beside the trial build, in .itself, its own size and time.
processor=$program.processor
# The folder in which git keeps the state of this checkout, where there is one. In a worktree .git is a file that
# names it.
git_folder=$here/.git
if [ -f "$git_folder" ]; then
    read -r _ git_folder <"$here/.git"
    [[ $git_folder = /* ]] || git_folder=$here/$git_folder
fi
# What times_now and text_now gave, where this call has asked.
now_times=
now_text=

say() { printf '%s: %s\n' "$speaker" "$*" >&2; }

has_toolchain() { command -v rt >/dev/null; }

# The crates of this repository that crate $1 stands on, itself included, each behind its level: one
# above the highest of those below it.
levels_of() {
    awk -F: -v top="$1" '{ sub(/#.*/, ""); split($1, head, " "); if (head[1] != "") below[head[1]] = $2 }
        function level(name, i, n, names, found) {
            if (!(name in below)) return 0
            if (name in known) return known[name]
            n = split(below[name], names, " ")
            found = 1
            for (i = 1; i <= n; i++) if (level(names[i]) >= found) found = known[names[i]] + 1
            print found, name
            return known[name] = found
        }
        END { level(top) }' "$here/crates.txt"
}

# Each file of the toolchain's folder, where rt is here, then crates.txt and each file and folder of the sources, with
# sizes and times. A change of a file changes its line, also one that sets the time of its text back.
times_now() {
    local tools=()
    if has_toolchain; then
        tools=$(readlink -f -- "$(command -v rt)")
        tools=("${tools%/*}/"r[at]*)
    fi
    cd "$here" && find ${tools[@]+"${tools[@]}"} "${sources[@]}" -printf '%p %s %T@ %C@\n'
}

# A sum of the sources' text, and behind it the name of the toolchain, where rt is here.
text_now() {
    (cd "$here" && find "${sources[@]}" -type f -print0 | LC_ALL=C sort -z | xargs -0 sha256sum) | sha256sum
    ! has_toolchain || rt version
}

# Looks at times once a call, and at texts where they are needed: a text is that of a build whose times stand.
see_times() { [ -n "$now_times" ] || now_times=$(times_now); }

see_text() {
    local made
    [ -z "$now_text" ] || return 0
    for made in "$program" "$trial" "$cached/trial"; do
        [ ! -f "$made.sources" ] || ! has_these_times "$made" || now_text=$(<"$made.sources")
    done
    [ -n "$now_text" ] || now_text=$(text_now)
}

see_anew() {
    now_times=
    now_text=
}

# Says where the toolchain is another one than the sources were proved with.
compare_toolchain() {
    local name wanted
    read -r wanted <"$here/tools/toolchain" || return
    name=$(rt version 2>/dev/null)
    [[ $name = *"$wanted" ]] ||
        say "the toolchain here is '$name', and these sources were proved with one whose name ends with '$wanted': this one may refuse them"
}

# The processor to build for: x86-64-v3 where this one has all that this level asks for, else the
# compiler's default.
processor_here() {
    local name of has=' ' flag
    while read -r name _ of; do
        [ "$name" != flags ] || { has=" $of "; break; }
    done </proc/cpuinfo 2>/dev/null
    for flag in avx avx2 bmi1 bmi2 f16c fma abm movbe xsave cx16 lahf_lm popcnt pni ssse3 sse4_1 sse4_2; do
        [[ $has = *" $flag "* ]] || { echo default; return; }
    done
    echo x86-64-v3
}

# Whether the program runs on this processor. One that was built by default runs on each, and is not
# built again for the processor's sake. The processor is looked at once in each boot of a machine, since
# that takes some milliseconds.
fits_here() {
    local built_for seen boot=
    read -r built_for seen <"$processor" || return
    [ "$built_for" != default ] || return 0
    read -r boot </proc/sys/kernel/random/boot_id
    [ -z "$boot" ] || [ "$seen" != "$boot" ] || return 0
    [ "$built_for" = "$(processor_here)" ] && { keep "$built_for $boot" "$processor"; true; }
} 2>/dev/null

# Whether the build $1 has the sources' times, and the toolchain's where rt is here.
has_these_times() {
    [ -x "$1" ] && [ -f "$1.times" ] || return
    see_times
    if has_toolchain; then
        [ "$now_times" = "$(<"$1.times")" ]
    else
        [ "$now_times" = "$(sed -n '/^crates\.txt /,$p' "$1.times")" ]
    fi
}

has_this_text() {
    [ -x "$1" ] && [ -f "$1.sources" ] || return
    see_times
    see_text
    if has_toolchain; then
        [ "$now_text" = "$(<"$1.sources")" ]
    else
        [ "${now_text%%$'\n'*}" = "$(head -n 1 "$1.sources")" ]
    fi
}

# Keeps the times beside the build $1. Where rt is not here those of the toolchain stay.
keep_times() {
    local tools=
    has_toolchain || [ ! -f "$1.times" ] || tools=$(sed '/^crates\.txt /,$d' "$1.times")
    keep "${tools:+$tools$'\n'}$now_times" "$1.times"
}

# Whether the build $1 is of the sources as they stand. The same text under other times is the same: where those can't
# be kept, the text is read each time.
is_of_these() {
    has_these_times "$1" && return
    has_this_text "$1" && { keep_times "$1" 2>/dev/null; true; }
}

# Whether the proved program is built from the sources as they stand, for this processor.
is_current() { is_of_these "$program" && fits_here; }

# Whether a trial build of the sources as they stand is kept, as it was put there: one that lost its text would answer
# nothing, with status 0.
is_kept() { is_of_these "$trial" && [ "$(size_of "$trial")" = "$(<"$trial.itself")" ]; } 2>/dev/null

# Sets $elsewhere to where a trial build of the sources is kept, where the tree can't be written.
see_elsewhere() {
    [ -n "$cache" ] || return
    see_times
    see_text
    elsewhere=$cache/${now_text%%[!0-9a-f]*}/trial
}

# Finds the trial build that is kept of the sources as they stand: it is $trial then.
find_kept() {
    local in_tree=$trial
    is_kept && return
    [ -d "$cache" ] && see_elsewhere && trial=$elsewhere && is_kept && return
    trial=$in_tree
    return 1
}

# Finds the program that answers calls of the sources as they stand, the proved one or else a kept trial build: $found.
# What tools/install put in place has no sources, and is of none but its own.
find_program() {
    found=
    if [ -f "$program.installed" ] || is_current; then
        found=$program
    elif find_kept; then
        found=$trial
    else
        return 1
    fi
}

size_of() { stat -c '%s %.9Y' "$1"; }

# Writes $1 to the file $2, whole or not at all.
keep() { printf '%s\n' "$1" >"$2.new" && mv "$2.new" "$2"; }

# Puts the file $1 in the place of the build $2, which is of the sources as this call has seen them. No sum and no times
# stand beside a build of other sources, wherever this is cut off.
put_build() {
    rm -f "$2.sources" "$2.times" && mv -f "$1" "$2" && keep "$now_text" "$2.sources" && keep "$now_times" "$2.times"
}

# Puts what lies in crates/cb_app/out in the place of the proved program, as built for the processor $1.
put_program() {
    cp "$here/crates/cb_app/out/cb_app" "$program.new" && rm -f "$program.sources" "$program.times" &&
        keep "$1" "$processor" && put_build "$program.new" "$program"
}

# Whether rt ci left a program of these sources. Its run makes each crate's out/ anew before it reads
# the crate; if nothing of the sources and the toolchain changed since the run began, what lies there
# is of them. It runs the program last, once all is proved, and keeps what it wrote.
left_by_gate() {
    local began=$git_folder/rt-ci.lock out=$here/crates/cb_app/out start newer born
    [ -f "$began" ] && [ -x "$out/cb_app" ] && [ ! -e "$out/cb_app.stamp" ] || return
    [ "$out/stdout" -nt "$out/cb_app" ] && cmp -s "$out/stdout" "$here/crates/cb_app/stdout" || return
    newer=$(cd "$here" && find "${sources[@]}" "$(dirname "$(readlink -f -- "$(command -v rt)")")" \
        -cnewer "$began" -print -quit) && [ -z "$newer" ] || return
    # Times of birth, in seconds of one width; 0 where the system keeps none.
    start=$(stat -c %.9Y "$began") && born=$(cd "$here/crates" && stat -c %.9W "${crates[@]/%//out}") || return
    [[ $(LC_ALL=C sort <<<"$born" | head -n 1) > $start ]]
}

# The crates below $goal and itself, the lowest first, and their sources.
crates=()
[ ! -f "$here/crates.txt" ] || mapfile -t crates < <(levels_of "$goal")
crates=(${crates[@]+"${crates[@]#* }"})
sources=(crates.txt)
for crate in ${crates[@]+"${crates[@]}"}; do
    for part in src specs proofs; do
        [ ! -d "$here/crates/$crate/$part" ] || sources+=("crates/$crate/$part")
    done
done
