# Read by the scripts `pilot`, `look` and `documents`, which set `root` (the repository's folder), `name` (their own name),
# `crate` (the program's crate) and `takes` (how long the first time takes): proves and builds the program where its sources have changed, keeps it, and runs it.
# Then `run_kept "$@"` takes the program's words.

out=$root/crates/$crate/out
program=$out/$crate
log=$out/${name}_log
# Touched as a build that succeeds begins, so that a later edit is newer.
built=$out/${name}_built

say() {
    printf '%s: %s\n' "$name" "$*" >&2
}

# What has changed since then, of all that the program is proved and built from.
changed() {
    (cd "$root" && find crates.txt HANDLES crates -path 'crates/*/out' -prune -o \
        \( -path crates.txt -o -path HANDLES -o -path 'crates/*/src*' -o -path 'crates/*/specs*' \
        -o -path 'crates/*/proofs*' \) -newer "$built" -print)
}

# The crates that the program is made of, each behind those that it stands on, as they are proved.
crates_of_program() {
    awk -v top="$crate" '
        function visit(one,   dep, count, at) {
            if (one in seen) return
            seen[one] = 1
            count = split(deps[one], dep, " ")
            for (at = 1; at <= count; at++) if (dep[at] in deps) visit(dep[at])
            print one
        }
        { sub(/#.*/, "") }
        /:/ { one = $1; sub(/:.*/, "", one); rest = $0; sub(/^[^:]*:/, "", rest); deps[one] = rest }
        END { visit(top) }' "$root/crates.txt"
}

# Which crate is being proved: the first that is begun and has no stamp yet. Sets `line`.
look_at_progress() {
    at=0
    missing=0
    for one in $crates; do
        at=$((at + 1))
        kept=$root/crates/$one/out/rlib
        if [ "$one" = "$crate" ] || [ -e "$kept/stamp" ]; then
            continue
        fi
        if [ -d "$kept" ]; then
            line="proving $one, $at of $count crates"
            return
        fi
        missing=1
    done
    if tail -n 1 "$log" | grep -q "^rt: waiting"; then
        line='waiting for another rt in this repository'
    elif [ "$missing" = 1 ]; then
        line="reading the sources of $count crates"
    else
        line="proving $crate, the last of $count crates, or looking for what has changed"
    fi
}

# Tells it where it changes, and every 30 seconds, for as long as the script that asked is there.
tell_progress() {
    told=
    since=0
    while kill -0 $$ 2>/dev/null; do
        look_at_progress
        if [ "$line" != "$told" ] || [ "$since" -ge 30 ]; then
            say "$line ($((($(date +%s) - begun) / 60)) minutes so far)"
            told=$line
            since=0
        fi
        since=$((since + 2))
        sleep 2 2>/dev/null
    done
}

prove_and_build() {
    mkdir -p "$out" || exit 1
    # What a build that was killed left; the name ends in the number of its process.
    for left in "$built".*; do
        kill -0 "${left##*.}" 2>/dev/null || rm -f "$left"
    done
    crates=$(crates_of_program)
    count=$(printf '%s\n' "$crates" | grep -c .)
    say "$1: proving and building it, $count crates"
    say "the first time takes $takes, a later one seconds to minutes (log: $log)"
    begun=$(date +%s)
    : >"$built.$$"
    : >"$log"
    tell_progress </dev/null >/dev/null &
    teller=$!
    (cd "$root/crates/$crate" && rt run -- --version) </dev/null >"$log" 2>&1
    ended=$?
    kill "$teller" 2>/dev/null
    if [ "$ended" -ne 0 ]; then
        rm -f "$built.$$"
        say 'it was not proved or not built; the log ends so:'
        tail -n 20 "$log" >&2
        exit 1
    fi
    mv "$built.$$" "$built"
    say "proved and built in $(($(date +%s) - begun)) seconds"
}

run_kept() {
    if [ ! -x "$program" ]; then
        why='there is no program yet'
    elif [ ! -e "$built" ]; then
        why='it is not known whether the program is that of these sources'
    elif [ -n "$(changed)" ]; then
        why='the sources have changed since the program was built'
    else
        why=''
    fi
    if [ -n "$why" ]; then
        if command -v rt >/dev/null 2>&1; then
            prove_and_build "$why"
        elif [ -x "$program" ]; then
            say "$why, and rt is not in the PATH: running the program as it is"
        else
            say "$why, and rt, the command of the Rattle kit that proves and builds it, is not in the PATH"
            exit 1
        fi
    fi
    # A write beyond the limit on the size of files fails then, and does not end the program.
    trap '' XFSZ
    exec "$program" "$@"
}
