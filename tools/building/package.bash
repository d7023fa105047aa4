# A part of ./numaplan: makes packages of the program and the library as they were proved: a
# tarball, packages for Debian (debian.bash), the wheel, and the Python package's sources.
#
# All is made in the room, by one command that can be ended at any time, and goes to its folder
# whole. The same sources and proofs make the same bytes: times are that of the commit. Not proved.

# Sets what the packages say of the sources: their version, commit, time and maintainer.
describe_sources() {
    local changed
    version=$(<"$top/VERSION") && package_name=numaplan-$version-linux-x86_64
    commit='no known commit' maintainer='nobody <nobody@example.org>'
    SOURCE_DATE_EPOCH=$(stat -c %Y "$top/VERSION")
    [ -e "$top/.git" ] && changed=$(git -C "$top" status --porcelain 2>/dev/null) || return 0
    commit="commit $(git -C "$top" log -1 --format=%H)${changed:+, with changes}"
    maintainer=$(git -C "$top" log -1 --format='%an <%ae>')
    SOURCE_DATE_EPOCH=$(git -C "$top" log -1 --format=%ct)
}

# The record of the proof, of the files below a folder.
write_record() {
    printf '%s\n' "numaplan $version, of $commit" '' \
        "Proved with $(sed -n 2p "$out/proved/of"). The last line of rt ci:" \
        "  for the program and the crates below it: $(<"$out/proved/proof")" \
        "  for the crates below the library: $(<"$out/library/proof")" \
        'The crate of the library itself was proved when its archive was built.' '' \
        'What was proved is in these files, here with their SHA-256, as it was built; scripts in' \
        'bin, libexec and share are not proved. sha256sum -c takes these lines, where lib is.' ''
    cd "$1" && sha256sum libexec/numaplan/numaplan lib/libnumaplan.a "lib/libnumaplan.so.$version"
}

# Puts a list of changes and the documents and examples for authors beside the others.
pack_documents() {
    local documents=$1/share/doc/numaplan kind
    for kind in c python rust/numaplan; do
        install -D -m 644 -t "$documents/examples/${kind%%/*}" "$top/$kind/examples/"* || return
    done
    sed -E -e 's@`(c|python)/examples/@`examples/\1/@g' -e 's@\bdocs/([A-Z])@\1@g' \
        "$top/docs/LIBRARY.md" >"$documents/LIBRARY.md" && cp "$top/CHANGELOG.md" "$documents/"
}

# Makes the tree that is packed, below a folder like /usr, and beside it the wheel and its sources.
make_tree() {
    local tree=$1 made=$2
    # (a subshell each, since they end the script where they fail)
    (install_in "$tree") && (library_in "$tree" library) && pack_documents "$tree" &&
        find "$tree/share/numaplan" -name __pycache__ -prune -exec rm -r {} + && # (made where it is installed)
        sed -i 's@^prefix=.*@prefix=${pcfiledir}/../..@' "$tree/lib/pkgconfig/numaplan.pc" &&
        write_record "$tree" >"$room/PROOF" &&
        mv "$room/PROOF" "$tree/share/doc/numaplan/" || return
    ! compgen -G "$tree/share/numaplan/*.whl" >/dev/null ||
        { mv "$tree/share/numaplan/"*.whl "$made" && python3 -B "$top/python/wheels.py" "$made" >/dev/null; }
}

make_tarball() {
    tar -C "$room" --sort=name --owner=0 --group=0 --numeric-owner --mode=u+w,go-w,a+rX \
        --mtime="@$SOURCE_DATE_EPOCH" -cf - "$package_name" | gzip -9n >"$1/$package_name.tar.gz"
}

# ---- all of them

# Makes the packages in a folder.
make_packages() {
    local made=$1 tree=$room/$package_name
    trap - EXIT INT TERM HUP
    export SOURCE_DATE_EPOCH TMPDIR=$room/temporary
    umask 022
    mkdir -p "$made" "$tree" "$TMPDIR" && make_tree "$tree" "$made" &&
        make_tarball "$made" || return
    ! command -v dpkg-deb >/dev/null || make_debs "$made"
}

# Puts what was made into its folder, in place of what an earlier run made there of this version.
hand_over() {
    trap '' INT TERM HUP
    rmdir "$new"
    new=$2/.numaplan-new
    rm -rf "$new"
    mkdir -p "$new" 2>/dev/null && cp "$1/"* "$new" && mv "$new"/* "$2" ||
        fault="$2 can't be written"
}

# Sees to it that what is packed is proved, and that rt's word on it is kept.
need_record() {
    [ -e "$out/$1/proof" ] || rm -rf "${out:?}/$1"
    need_proved "$1"
}

package_in() {
    local folder commit version package_name maintainer SOURCE_DATE_EPOCH
    command -v rt >/dev/null || { say "rt, which proves what is packed, isn't in PATH" && exit 1; }
    unset NUMAPLAN_ARCHIVE # (which nobody proved here)
    folder=$(realpath -m "$1")
    need_record proved
    need_record library
    describe_sources
    hold "$top/VERSION" 'makes packages'
    begin packages
    [ -n "$fault" ] || start make_packages "$room/made"
    [ -n "$fault" ] || await || fault=$(tail -n 1 "$room/said")
    [ -n "$fault" ] || hand_over "$room/made" "$folder"
    leave
    [ -z "$fault" ] || { say "no package is made: $fault" && exit 1; }
    tell_packages "$folder"
}

# Tells what was made, and what wasn't.
tell_packages() {
    say "in $1: $(cd "$1" && echo numaplan-"$version"{,-*}.tar.gz *numaplan*"$version"*.@(deb|whl))"
    command -v dpkg-deb >/dev/null || say "dpkg-deb isn't in PATH, so there is no .deb"
    command -v python3 >/dev/null || say "python3 isn't in PATH, so there is no wheel, nor its sources"
}
