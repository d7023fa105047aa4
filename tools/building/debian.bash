# A part of ./numaplan: makes the packages for Debian, of the tree that is packed: libnumaplan0 has
# the shared library, libnumaplan-dev what programs are compiled with, python3-numaplan the Python
# package, and numaplan the program, the tools and the documents. No script runs when one is
# installed or removed. Not proved.

multiarch=x86_64-linux-gnu # (the folder of libraries for this kind of machine)

declare -A architecture=([python3-numaplan]=all)
declare -A section=([libnumaplan0]=libs [libnumaplan-dev]=libdevel [python3-numaplan]=python)
declare -A about=(
    [libnumaplan0]='shared library'
    [libnumaplan-dev]='development files'
    [python3-numaplan]='for Python'
)
# What was proved is packed as it was built: PROOF has its sum.
declare -A overrides=(
    [numaplan]='unstripped-binary-or-object [usr/libexec/numaplan/numaplan]'
    [libnumaplan0]='unstripped-binary-or-object [usr/lib/*]'
)

# The newest libc that files ask for.
libc_of() { objdump -T "$@" | grep -o 'GLIBC_[0-9][0-9.]*' | sort -uV | tail -n 1 | cut -d _ -f 2; }

# ---- the files

# Gives all of them the places and forms that Debian has of its own: for libraries, Python and zsh,
# and compressed pages.
suit_debian() {
    local usr=$1/usr library=$1/usr/lib/$multiarch
    mkdir -p "$library" "$usr/lib/python3/dist-packages" "$usr/share/zsh/vendor-completions" &&
        mv "$usr/lib/"{libnumaplan*,pkgconfig,cmake} "$library/" &&
        chmod a-x "$library/libnumaplan.so.$version" &&
        sed -i -e 's@^prefix=.*@prefix=/usr@' -e "s@{prefix}/lib @{prefix}/lib/$multiarch @" \
            "$library/pkgconfig/numaplan.pc" &&
        sed -i -e 's@LIST_DIR}/\(\.\./\)*\.\."@LIST_DIR}/../../../.."@' \
            -e "s@prefix}/lib/@prefix}/lib/$multiarch/@" \
            "$library/cmake/numaplan/numaplan-config.cmake" &&
        mv "$usr/share/numaplan/numaplan" "$usr/lib/python3/dist-packages/" &&
        ln -s ../../lib/python3/dist-packages/numaplan "$usr/share/numaplan/numaplan" &&
        mv "$usr/share/zsh/site-functions/_numaplan" "$usr/share/zsh/vendor-completions/" &&
        rmdir "$usr/share/zsh/site-functions" && gzip -9n "$usr/share/man"/man*/*
}

# move_to PACKAGE PATH..: moves files from all of them to a package.
move_to() {
    local to=$debian/$1 path
    for path in "${@:2}"; do
        mkdir -p "$to/$(dirname "$path")" && mv "$debian/all/$path" "$to/$path" || return
    done
}

# Distributes them; what is left is numaplan's.
divide() (
    cd "$debian/all" || return
    move_to libnumaplan0 "usr/lib/$multiarch/libnumaplan.so."* &&
        move_to libnumaplan-dev "usr/lib/$multiarch/"* usr/include usr/share/man/man3 \
            usr/share/numaplan/{rust,tsan.supp} &&
        move_to python3-numaplan usr/lib/python3 usr/share/numaplan/numaplan &&
        rmdir "usr/lib/$multiarch" usr/lib && mv "$debian/all" "$debian/numaplan"
)

# Puts what every package has beside its documents.
document() {
    local package=$1 documents=$debian/$1/usr/share/doc/$1
    mkdir -p "$documents" && gzip -9nc "$top/CHANGELOG.md" >"$documents/changelog.gz" &&
        printf '%s\n' "numaplan ($version-1) unstable; urgency=medium" '' \
            '  * Made by ./numaplan package, of' "    $commit." '' \
            " -- $maintainer  $(date -uRd "@$SOURCE_DATE_EPOCH")" |
        gzip -9nc >"$documents/changelog.Debian.gz" &&
        printf '%s\n' 'No licence has been granted yet; that is for the owners of the' \
            'repository of numaplan to decide.' >"$documents/copyright" || return
    [ "$package" = python3-numaplan ] || divide_record "$package" "$documents" || return
    [ -n "${overrides[$package]:-}" ] || return 0
    mkdir -p "$debian/$package/usr/share/lintian/overrides" &&
        printf '%s\n' '# (what was proved is packed as it was built: PROOF has its sum)' \
            "$package: ${overrides[$package]}" \
            >"$debian/$package/usr/share/lintian/overrides/$package"
}

# Writes the record of the proof with the sums of what the package has.
divide_record() {
    local sum file
    grep -vE '^[0-9a-f]{64}  ' "$debian/PROOF" >"$2/PROOF"
    sed -nE "s@^([0-9a-f]{64})  (lib/)?@\1 \2@p" "$debian/PROOF" | while read -r sum file; do
        file=${file/#lib\//lib/$multiarch/}
        [ ! -f "$debian/$1/usr/$file" ] || echo "$sum  $file"
    done >>"$2/PROOF"
}

# ---- the packages

# What a package needs, and goes with.
write_relations() {
    local same="(= $version-1)"
    case $1 in
        libnumaplan0) echo "Depends: libc6 (>= $libc)" ;;
        libnumaplan-dev) printf '%s\n' "Depends: libnumaplan0 $same" 'Suggests: numaplan' ;;
        python3-numaplan)
            printf '%s\n' "Depends: python3 (>= 3.8), libnumaplan0 $same" 'Suggests: numaplan' ;;
        numaplan)
            printf '%s\n' "Depends: libc6 (>= $libc)" \
                "Recommends: python3 (>= 3.10), python3-numaplan $same" \
                'Suggests: libnumaplan-dev' ;;
    esac
}

# The KiB of a folder's files, each rounded up, and one for all else, whatever a file system takes for it.
installed_size() {
    find "$1" -printf '%y %s\n' | awk '{ n += $1 == "f" ? int(($2 + 1023) / 1024) : 1 } END { print n }'
}

write_control() {
    local package=$1
    printf '%s\n' "Package: $package"
    [ "$package" = numaplan ] || echo 'Source: numaplan'
    printf '%s\n' "Version: $version-1" "Architecture: ${architecture[$package]:-amd64}"
    [[ $package != lib* ]] || echo 'Multi-Arch: same'
    printf '%s\n' "Section: ${section[$package]:-utils}" 'Priority: optional' \
        "Maintainer: $maintainer" \
        "Installed-Size: $(installed_size "$debian/$package/usr")"
    write_relations "$package"
    printf '%s\n' \
        "Description: says where Linux would place memory under NUMA policies${about[$package]:+ (${about[$package]})}" \
        ' It answers for a machine and policies that are described: nodes and' \
        ' distances, mbind and set_mempolicy, weights, home nodes, and the nodes that' \
        ' a cpuset allows. The program and the library libnumaplan are proved, and' \
        ' need libc and a processor of x86-64-v2; numaplan-emulate and the other' \
        ' scripts need Python.'
}

make_deb() {
    local package=$1 root=$debian/$1 kind=${architecture[$1]:-amd64}
    document "$package" && chmod -R u+w,go-w,a+rX "$root" && mkdir "$root/DEBIAN" || return
    if [ "$package" = libnumaplan0 ]; then
        echo 'activate-noawait ldconfig' >"$root/DEBIAN/triggers"
        echo "libnumaplan ${version%%.*} libnumaplan0 (>= $version)" >"$root/DEBIAN/shlibs"
    fi
    write_control "$package" >"$root/DEBIAN/control" &&
        (cd "$root" && find usr -type f | LC_ALL=C sort | xargs md5sum >DEBIAN/md5sums) &&
        dpkg-deb --root-owner-group --build "$root" "$2/${package}_$version-1_$kind.deb"
}

# Makes all four in a folder, of the tree below $room.
make_debs() {
    local debian=$room/debian package libc
    libc=$(libc_of "$room/$package_name/"{libexec/numaplan/numaplan,lib/libnumaplan.so})
    mkdir -p "$debian/all" && cp -a "$room/$package_name" "$debian/all/usr" &&
        mv "$debian/all/usr/share/doc/numaplan/PROOF" "$debian/" &&
        rm "$debian/all/usr/share/doc/numaplan/CHANGELOG.md" && suit_debian "$debian/all" &&
        divide || return
    for package in libnumaplan{0,-dev} python3-numaplan numaplan; do
        make_deb "$package" "$1" || return
    done
}
