# What the parts in bash that need a library share: $work, a folder that goes at the end, and `check`,
# which counts in $failed. Not proved.
work=$(mktemp -d) || exit 1
trap 'rm -rf "$work"' EXIT
failed=0

# check WHAT COMMAND..: runs the command, and tells.
check() {
    if "${@:2}" >"$work/said" 2>&1; then
        echo "ok $1"
    else
        sed 's/^/  /;$a\' "$work/said"
        echo "FAILED $1"
        failed=1
    fi
}
