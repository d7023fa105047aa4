# A part of ./numaplan: proves the program, or the C library, and all crates below it.
#
# It is proved by `rt ci`, in a room: a repository of copies of those crates alone, among the
# temporary files. Where the kit's rt keeps what passes, beside the kit and each crate as soon as it
# is proved, neither this nor ./test proves again what the other proved, and a proof that was
# interrupted goes on from there. ahead.bash says what runs side by side; NUMAPLAN_JOBS is how many
# proofs do instead, each with one job. Not proved.

building=$top/tools/building
. "$building/ahead.bash"

declare -A proof_takes=(
    [proved]='some 40 minutes on four processors, and 3 GB of disk'
    [library]='some 30 minutes on four processors, or 7 if the program is proved'
)

# How many proofs run side by side, if NUMAPLAN_JOBS says so.
if [[ ${NUMAPLAN_JOBS:-} =~ ^[1-9][0-9]*$ ]]; then
    export RT_JOBS=$NUMAPLAN_JOBS
else
    unset RT_JOBS
fi

# Copies the needed crates into the room, with their lines of crates.txt. (rt looks for a .git.)
fill_room() {
    local name said crates=()
    mkdir -p "$room/repository/.git" "$room/temporary" && chmod 711 "$room" "$room/temporary" &&
        cd "$top" || return
    for name in "${needed[@]}"; do
        [ "$name" != numaplan_c ] || continue # (take_library proves it)
        crates+=("crates/$name/"!(out))
        echo "${row[$name]}" >>"$room/repository/crates.txt"
    done
    said=$(cp -R --parents "${crates[@]}" HANDLES "$room/repository" 2>&1) ||
        fault=${said##*$'\n'}
    cd "$here" && [ -z "$fault" ]
}

# ---- how far it is

# The crates that rt has told to be proved now, or kept from an earlier run: a name a line.
told() { sed -n "s/^rt: \([a-z0-9_]*\) \($1\).*/\1/p" "${@:2}"; }

# Counts what rt has told: `found` crates kept from earlier runs, `ended` in all, and the latest.
# (What a run ahead has proved is kept for the whole one, and not found.)
look() {
    latest=$(told 'proved$' "$room/said" | tail -n 1)
    ended=$(told 'proved$\|is kept: ' "$room/said" | sort -u | wc -l)
    found=$((ended - $(told 'proved$' "$room/said" | sort -u | wc -l)))
}

progress() {
    printf '%d of %d crates in %d:%02d' "$ended" "$total" $((SECONDS / 60)) $((SECONDS % 60))
    ((found == 0)) || printf ', %d of them proved before' "$found"
    printf %s "${latest:+; the latest is $latest}"
}

# On a terminal: rewrites its one line, cut to its width. Elsewhere: a line where more has ended.
show() {
    local columns line
    look
    line="numaplan: $(progress)"
    if [ -t 2 ]; then
        columns=$(stty size <&2 | cut -d ' ' -f 2)
        ((columns > 1)) || columns=80
        printf '\r\e[K%s' "${line:0:columns-1}" >&2
    elif [ "$ended" != "$shown" ]; then
        echo "$line" >&2
    fi
    shown=$ended
}

# What rt said, but for the crates that it proved.
tell_failure() {
    awk '/^== / { held = "" }
         !/: proved$/ { held = held $0 "\n" }
         /^rt: .* proved$/ || /^rt: .* is kept: / { held = "" }
         / NOT PROVED/ { printf "%s", held; held = "" }
         END { printf "%s", held }' "$room/said" >&2
}

# ---- the proof

# Has all proved in the room, and shows how far it is.
prove_in_room() {
    local found=0 ended=0 total latest='' shown='' status
    total=$(grep -c . "$room/repository/crates.txt")
    cd "$room/repository" || return
    SECONDS=0
    TMPDIR=$room/temporary start prove_all
    cd "$here" || return
    while kill -0 "$child" 2>/dev/null; do
        show
        sleep "$((SECONDS < 3 ? 0 : 1)).2"
    done
    await
    status=$?
    show
    [ ! -t 2 ] || echo >&2
    if [ "$status" = 0 ]; then
        tail -n 1 "$room/said" >"$new/proof" # (which ./numaplan package records)
        grep '^rt: note: ' "$room/said" >&2
        return 0
    fi
    tell_failure
    return "$status"
}

# Takes the program that `rt ci` left in the room, also to where the parts of ./test look for it.
take_proved() {
    local made=$room/repository/crates/numaplan/out/numaplan
    keep proved "$made" "$(sum_of "$room/repository")" || return
    install -D -m 755 "$made" "$top/crates/numaplan/out/numaplan"
    return 0
}

# Makes the library's archive of what `rt ci` left in the room. Its own crate is proved in that.
take_library() {
    say 'the crates below it are proved; building the library, and so proving its own crate'
    (cd "$top" && cp -R --parents crates/numaplan_c/!(out) tests/library{/archive,-words} \
        "$room/repository") && echo "${row[numaplan_c]}" >>"$room/repository/crates.txt" || return
    start "$room/repository/tests/library/archive" "$room/libnumaplan_c.a"
    await && keep library "$room/libnumaplan_c.a" "$(sum_of "$room/repository")" && return
    grep -v ': proved$' "$room/said" >&2
    return 1
}

# Tells what is to be proved, how long that takes, and what an interrupt costs.
announce() {
    local beside=${kit%/*} takes=${proof_takes[$1]}
    keeps_proofs || takes=${takes%, or 7 *}
    say "proving ${what[$1]} and the $((${#needed[@]} - 1)) crates below it: $takes"
    if ! keeps_proofs; then
        say "don't interrupt this: this kit's rt doesn't keep what it proved"
    elif [ -w "$beside" ] || [ -w "$beside/rattle-kept" ]; then
        say 'this can be interrupted, and then goes on from there'
    else
        say "don't interrupt this: rt can't keep what it proved in $beside"
    fi
}

# Sees to it that the proved program stands, or the library (KIND), and is as new as its sources.
make_proved() {
    local kind=$1
    hold "$top/crates.txt" 'proves it'
    if is_current "$kind"; then
        release
        return
    fi
    begin "$kind"
    [ -n "$fault" ] || announce "$kind"
    [ -n "$fault" ] || fill_room || fault=${fault:-"$room can't be written"}
    [ -n "$fault" ] || prove_in_room || fault="rt ci ended with status $?"
    [ -n "$fault" ] || "take_$kind" || fault=${fault:-'it was not built'}
    leave
    [ -z "$fault" ] && is_current "$kind" && return
    say "${what[$kind]} isn't proved: ${fault:-its sources have changed meanwhile}"
    exit 1
}
