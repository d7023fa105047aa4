# A part of the test of ./numaplan: what tests/library/archive keeps, and when it builds anew. Not proved.

# archive REPOSITORY: has it made there, by the stand-in for rattle, which notes that.
archive() {
    (cd "$1" && PATH=$path NUMAPLAN_ARCHIVE= tests/library/archive "$top/made.a") >"$top/said" 2>&1
    ended=$?
    said=$(<"$top/said")
}

# Whether it was built so often in all, and the last call gave one.
is_built() { [ "$ended" = 0 ] && [ "$(<"$top/made.a")" = archive ] && [ "$(grep -c built "$notes")" = "$1" ]; }

try_archive() {
    local repository=$top/repository other=$top/other
    mkdir -p "$repository/tests/library" "$repository/crates/"{low/out/rlib/low.rlib,numaplan_c/{src,specs,proofs}}
    cp "$here/../library/archive" "$repository/tests/library/"
    cp "$here/../library-words" "$repository/tests/"
    echo 'numaplan_c staticlib: low' >"$repository/crates.txt"
    echo 'low:' >>"$repository/crates.txt"
    echo none | tee "$repository/HANDLES" "$repository/crates/numaplan_c/src/lib.rt" \
        >"$repository/crates/low/out/rlib/low.rlib/format"
    cp -r "$repository" "$other"
    : >"$notes"
    archive "$repository"
    check 'an archive is built' is_built 1
    archive "$other"
    check 'and taken by another checkout of the same text' is_built 1
    for file in crates/numaplan_c/src/lib.rt crates/low/out/rlib/low.rlib/format HANDLES; do
        echo more >>"$other/$file"
        : >"$notes"
        archive "$other"
        check "a change of $file builds it anew" is_built 1
    done
    echo damaged | tee "$top/rattle-kept/archives/"*/made.a >/dev/null
    archive "$other"
    check 'one that is damaged is not taken' is_built 2
    echo 'fake-kit 3' >"$top/kit/KIT-ID"
    (archive "$other") & archive "$repository"
    wait
    check 'nor one of another kit' is_built 4
    mv "$top/rattle-kept" "$top/away"
    touch "$top/rattle-kept"
    archive "$repository"
    check 'where nothing can be kept beside the kit it is kept in out' is_built 5
    archive "$repository"
    check 'and taken from there' is_built 5
    rm "$top/rattle-kept"
}
