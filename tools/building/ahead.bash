# How ./numaplan and ./test run `rt ci`: crates are proved ahead, in the order that ahead.py says.
#
# rt by itself begins with the crates that have most lines above them, and gives a proof the
# processors that no other waits for, and so one to each crate while others are there. Where it keeps
# what passes, beside the kit and each crate as soon as it is proved, each crate has a run of its own
# here, with two jobs where much waits for it. The whole run begins when these have ended, and takes
# what they have kept. Not proved.

# Whether the kit's rt keeps what passes, in a folder of that name (rattle-kit-13b's doesn't).
keeps_proofs() {
    local kit
    kit=$(dirname "$(rt doc | head -1)")
    grep -qs 'rattle-kept\|class Kept' "$kit"/bin/rt "$kit"/bin/rtlib.py
}

# (On few processors nothing is gained. With CI=true rt takes no names.)
goes_ahead() {
    keeps_proofs && [ -z "${RT_JOBS:-}" ] && [ "$(nproc)" -ge 4 ] && [ "${CI:-}" != true ]
}

# Runs `rt ci` at the top of a repository here, where the folder of this file is in $building.
prove_all() {
    local status
    if goes_ahead; then
        trap 'end_below "$BASHPID"; exit 130' INT TERM HUP
        python3 -B "$building/ahead.py"
    fi
    rt ci
    status=$?
    end_below "$BASHPID"
    return "$status"
}

# Ends what a process has started, and what that has. (Each is stopped first: it begins nothing more.)
end_below() {
    local child
    for child in $(ps -o pid= --ppid "$1"); do
        kill -STOP "$child" 2>/dev/null
        end_below "$child"
        kill "$child" 2>/dev/null
        kill -CONT "$child" 2>/dev/null
    done
}
