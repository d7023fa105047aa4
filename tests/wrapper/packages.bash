# A part of the test of ./numaplan: its packages, of the stand-in's program and library. They have
# what they should, of one version, and nothing is left behind. Not proved.

# packed FOLDER [without]: what the packages are called, in order; those for Debian too, or not.
packed() {
    local version first='' last=''
    version=$(<"$top/VERSION")
    if [ "${2:-}" != without ]; then
        first="libnumaplan-dev_$version-1_amd64.deb libnumaplan0_$version-1_amd64.deb "
        last=" numaplan_$version-1_amd64.deb python3-numaplan_$version-1_all.deb"
    fi
    [[ $(cd "$1" && LC_ALL=C && echo *) = "${first}numaplan-$version-linux-x86_64.tar.gz"\
" numaplan-$version-py3-none-"*".whl numaplan-$version.tar.gz$last" ]]
}

# The library's crate, with what builds its archive, beside the others.
make_library() {
    mkdir -p "$top/tests/library" "$top/crates/numaplan_c/src" "$top/kit/c"
    cp "$here/archive" "$top/tests/library/archive"
    cp -r "$here/../../"{c,python,rust,VERSION,CHANGELOG.md} "$top/"
    touch "$top/tests/library-words"
    printf '!<arch>\n' >"$top/kit/c/liblibc_c.a"
    echo library >"$top/crates/numaplan_c/src/lib.rt"
    echo 'numaplan_c staticlib: left right' >>"$top/crates.txt"
}

# Unpacks the tarball, and sets where.
unpack() {
    tree=$top/unpacked/numaplan-$(<"$top/VERSION")-linux-x86_64
    mkdir "$top/unpacked" && tar -C "$top/unpacked" -xzf "$top/made/"*-linux-x86_64.tar.gz && [ -d "$tree" ]
}

# Whether the tree has each of these files.
holds() {
    local file
    for file in "$@"; do [ -e "$tree/$file" ] || { echo "  no $file" && return 1; }; done
}

is_recorded() {
    local record=$tree/share/doc/numaplan/PROOF
    grep -q 'Proved with fake-kit 2' "$record" &&
        grep -q 'crates below it: rt: numaplan ' "$record" &&
        (cd "$tree" && sha256sum -c --quiet share/doc/numaplan/PROOF 2>"$top/said") &&
        [ "$(grep -cE '^[0-9a-f]{64}  ' "$record")" = 3 ]
}

is_elsewhere() {
    local flags
    flags=$(PKG_CONFIG_PATH=$tree/lib/pkgconfig pkg-config --variable=prefix numaplan)
    [ "$flags" -ef "$tree" ]
}

try_tree() {
    check 'the tarball has one folder' unpack
    check 'with program, libraries, header, pages, completions, documents and examples' holds \
        bin/numaplan{,-emulate,-record,-machine-line} libexec/numaplan/{numaplan,on-machine} lib/libnumaplan.{a,so,so.0} \
        lib/pkgconfig/numaplan.pc include/numaplan{,_pools,_reports}.h share/man/man1/numaplan{,-emulate,-record}.1 \
        share/man/man{3/libnumaplan.3,5/numaplan-script.5} share/numaplan/numaplan/machine-line \
        share/numaplan/rust/numaplan/{Cargo.toml,build.rs,src/lib.rs,examples/first.rs} \
        share/bash-completion/completions/numaplan share/numaplan/numaplan/__init__.py \
        share/doc/numaplan/{SCRIPT,COMMANDS,ADMIN,KERNEL,EMULATE,LIBRARY,CHANGELOG}.md \
        share/doc/numaplan/examples/{first-run.numaplan,c/first.c,python/first.py,rust/first.rs}
    check 'and the record of the proof, whose sums are right' is_recorded
    answer=$("$tree/bin/numaplan" run)
    check 'its program is the proved one' answers proved
    check 'no place of this run is named in it' bash -c "! grep -rlF '$top/' '$tree'"
    ! command -v pkg-config >/dev/null || check 'numaplan.pc names the place it is at' is_elsewhere
    answer=$(cd "$tree/share/numaplan" &&
        python3 -B -c 'import numaplan; print(numaplan.__version__)')
    check 'its Python module finds the library beside it, and both are of the version' \
        test "$answer" = "$(<"$top/VERSION")"
}

# ---- the packages for Debian, unpacked where they would be installed

debs() { (LC_ALL=C && echo "$top/made/"*.deb); }

# A line of each: its name, and what it depends on.
list_relations() {
    local deb
    for deb in $(debs); do
        # shellcheck disable=SC2016 # (dpkg-deb's own)
        dpkg-deb -W --showformat='${Package} ${Version} ${Architecture} ${Depends}\n' "$deb"
    done
}

wanted_relations() {
    local version=$1-1 libc='libc6 (>= 2.N)'
    printf '%s\n' "libnumaplan-dev $version amd64 libnumaplan0 (= $version)" \
        "libnumaplan0 $version amd64 $libc" "numaplan $version amd64 $libc" \
        "python3-numaplan $version all python3 (>= 3.8), libnumaplan0 (= $version)"
}

install_debs() {
    local deb
    for deb in $(debs); do dpkg-deb -x "$deb" "$root" || return; done
}

# Each file is in one package alone. (Folders end with /.)
are_apart() {
    local deb
    for deb in $(debs); do dpkg-deb -c "$deb"; done | awk '{ print $6 }' | grep -v '/$' | sort | uniq -d |
        diff /dev/null -
}

# What dpkg is told: no script, and of the shared library alone what others need.
list_told() {
    local deb
    for deb in $(debs); do
        dpkg-deb --ctrl-tarfile "$deb" | tar -t | grep -vE '^\./((control|md5sums)?)$' |
            sed "s@^\.@$(dpkg-deb -f "$deb" Package)@"
    done
}

is_recorded_in_debs() {
    (cd "$root/usr" && sha256sum -c --quiet share/doc/*numaplan*/PROOF 2>"$top/said") &&
        [ "$(cat "$root/usr/share/doc/"*/PROOF | grep -cE '^[0-9a-f]{64}  ')" = 3 ]
}

# What pkg-config and CMake find, as if the root were /.
are_found() {
    local library=$root/usr/lib/x86_64-linux-gnu
    answer=$(PKG_CONFIG_PATH=$library/pkgconfig \
        pkg-config --define-variable=prefix="$root/usr" --cflags --libs numaplan)
    [[ $answer = "-I$root/usr/include -L$library -lnumaplan"* ]]
}

are_found_by_cmake() {
    mkdir -p "$top/cmake" && printf '%s\n' 'cmake_minimum_required(VERSION 3.13)' 'project(x C)' \
        'find_package(numaplan REQUIRED)' 'foreach(one numaplan archive)' \
        '  get_target_property(file numaplan::${one} IMPORTED_LOCATION)' \
        '  get_target_property(folder numaplan::${one} INTERFACE_INCLUDE_DIRECTORIES)' \
        '  if(NOT EXISTS ${file} OR NOT EXISTS ${folder}/numaplan.h)' \
        '    message(FATAL_ERROR "${file} ${folder}")' '  endif()' 'endforeach()' \
        >"$top/cmake/CMakeLists.txt" &&
        answer=$(cmake -S "$top/cmake" -B "$top/cmake/made" -DCMAKE_PREFIX_PATH="$root/usr" 2>&1)
}

# Python's package finds the library where the loader looks, and numaplan-emulate the package.
is_imported() {
    local place
    for place in lib/python3/dist-packages share/numaplan; do
        answer=$(cd "$root/usr/$place" && LD_LIBRARY_PATH=$root/usr/lib/x86_64-linux-gnu python3 -B -c \
            'import numaplan; print(numaplan.__version__, numaplan.LIBRARY._name)')
        [ "$answer" = "$1 libnumaplan.so.0" ] || return
    done
}

# (lintian leaves files in TMPDIR.)
lintian_passes() {
    mkdir "$top/lintian" &&
        answer=$(TMPDIR=$top/lintian lintian --fail-on error --tag-display-limit 0 $(debs) 2>&1)
}

try_debs() {
    local version root=$top/root
    version=$(<"$top/VERSION")
    answer=$(list_relations | sed -E 's/(libc6 \(>= 2)\.[0-9.]+/\1.N/' | diff - <(wanted_relations "$version"))
    check 'the .debs need libc, Python and each other of the same version' test -z "$answer"
    check 'they unpack' install_debs
    check 'no file is in two of them' are_apart
    answer=$(for deb in $(debs); do dpkg-deb -c "$deb"; done |
        grep -vE '^[d-][rwx-]{9} root/root .* \./(usr/.*)?$|^l')
    check 'all of it is root'"'"'s, and below /usr' test -z "$answer"
    answer=$(list_told)
    check 'and no script runs as they are installed' \
        test "$answer" = $'libnumaplan0/shlibs\nlibnumaplan0/triggers'
    check 'each has the sums of what was proved' is_recorded_in_debs
    check 'the Python package is imported from both of its places' is_imported "$version"
    ! command -v pkg-config >/dev/null || check 'pkg-config finds the library' are_found
    ! command -v cmake >/dev/null || check 'and CMake' are_found_by_cmake
    ! command -v lintian >/dev/null || check 'lintian finds no error in them' lintian_passes
}

try_packages() {
    local name
    for name in cc ar readelf python3; do
        command -v $name >/dev/null && continue
        echo "left out, since $name isn't in PATH: packages"
        [ "${CI:-}" != true ] || { echo "FAILED packages: no $name" && failed=1; }
        return
    done
    make_library
    run package "$top/made"
    check 'packages prove what they are made of first' says 'proving the C library and the 3 crates'
    check 'and say where they are' says "in $top/made: numaplan-"
    check 'a tarball, a wheel, its sources and four .debs' packed "$top/made"
    check 'nothing half done stays behind packages' is_tidy
    try_tree
    [ ! -x /usr/bin/dpkg-deb ] || try_debs
    cp -r "$top/made" "$top/earlier"
    run package ../made
    check 'a second time nothing is proved' notes 'pack pack pack pack '
    check 'and the same bytes are made' diff -r "$top/made" "$top/earlier"
    try_faults_of_packing
}

try_faults_of_packing() {
    touch "$slow"
    for signal in INT TERM HUP; do
        run_and_end $signal pack package
        check "packing is ended by $signal" \
            fails $((128 + $(kill -l $signal))) 'interrupted; clearing up'
        check 'which leaves nothing behind' bash -c "[ ! -e '$top/out/packages' ]"
        check 'and nothing half done' is_tidy
    done
    rm "$slow"
    mkdir "$top/bare" && ln -s /usr/bin/* "$top/bare/" && rm -f "$top/bare/dpkg-deb"
    mv "$top/kit/bin/dpkg-deb" "$top/kit/away"
    path=$top/kit/bin:$top/bare run package
    check 'without dpkg-deb that is said' says "dpkg-deb isn't in PATH, so there is no .deb"
    check 'and the others are made' packed "$top/out/packages" without
    mv "$top/kit/away" "$top/kit/bin/dpkg-deb"
    touch "$top/taken"
    run package "$top/taken/below"
    check 'a folder that can'"'"'t be made is told' fails 1 "$top/taken/below can't be written"
    check 'and nothing is left for it' is_tidy
    change left/src/main.rt wrong
    run package "$top/unproved"
    check 'nothing is packed that is not proved' fails 1 "isn't proved: rt ci ended with status 1"
    check 'not even a folder' test ! -e "$top/unproved"
    sed -i '$d' "$top/crates/left/src/main.rt"
    run package a b
    check 'a word more is a fault of usage, too' fails 2 ''
}

# The version is everywhere that of the file VERSION, in what needs no build. (tests/library asks
# those that are built.)
try_versions() {
    local version major minor patch
    cd "$here/../.." && version=$(<VERSION) && IFS=. read -r major minor patch <<<"$version"
    answer=$(./numaplan --version)
    check 'the script says the version' prints "numaplan $version, "
    answer=$(sed -nE 's/^#define NP_VERSION_(MAJOR|MINOR|PATCH) //p' c/numaplan.h | paste -sd .)
    check 'so does the header' test "$answer" = "$version"
    check 'and the library' \
        grep -q "result ≡ version_number $major $minor $patch }" crates/numaplan_c/src/version.rt
    check 'and the program' \
        grep -q "^pub const VERSION: &str = \"$version (" crates/numa_sheets/src/version.rt
    check 'and the Python package' grep -qx "__version__ = \"$version\"" python/numaplan/__init__.py
    check 'and its project' grep -qx "version = \"$version\"" python/pyproject.toml
    check 'and the Rust crate' grep -qx "version = \"$version\"" rust/numaplan/Cargo.toml
    check 'and its constant' \
        grep -qx "pub const VERSION: &str = \"$version\";" rust/numaplan/src/lib.rs
    cd "$top/elsewhere" || exit 1
}
