# A part of ./numaplan: puts the C library, and what stands on it, into a PREFIX. Not proved.
#
# A library without a proof is libnumaplan-unproved in all names, and np_version says so too.

# Sets the kind of the library that a PREFIX gets, its stem and its name to programs.
name_library() {
    kind=$1 stem=libnumaplan
    [ "$kind" = library ] || stem=libnumaplan-unproved
    version=$(<"$top/VERSION") name=$stem.so.${version%%.*}
}

# link_library ARCHIVE FOLDER: makes archive and shared library in the folder, with c/numaplan_memory.c
# in place of the kit's allocator. The shared library is STEM.so.0 to programs. What is proved is
# compiled for x86-64-v2: on a processor of less the loader says so, and doesn't load it.
link_library() {
    local made=$1 to=$2/$stem memory=$2/numaplan_memory.o needs=()
    [ "$kind" != library ] || needs=(-Wl,-z,x86-64-v2)
    "${CC:-cc}" -std=c11 -O2 -fPIC -c "$top/c/numaplan_memory.c" -o "$memory" &&
        printf '%s\n' "create $to.a" "addlib $made" "addmod $memory" save end | ar -M &&
        "${CC:-cc}" -shared -o "$to.so" -Wl,--whole-archive "$to.a" -Wl,--no-whole-archive \
            "${needs[@]}" -Wl,-z,defs -Wl,--version-script="$top/c/exports.map" -Wl,-soname,"$name"
}

write_pc() {
    printf '%s\n' "prefix=$(realpath -m "$1")" 'Name: numaplan' \
        "Description: A planner of NUMA memory placement ($2)" "Version: $version" \
        "Libs: -L\${prefix}/lib -l${stem#lib}" 'Cflags: -I${prefix}/include'
}

# write_cmake FOLDER: what find_package(numaplan) of CMake reads. It finds the rest from where it lies,
# and takes each version with the same first number that isn't older.
write_cmake() {
    local prefix='${numaplan_prefix}' name_in_cmake=${stem#lib}
    printf '%s\n' "set(PACKAGE_VERSION $version)" \
        "if(PACKAGE_FIND_VERSION_MAJOR EQUAL ${version%%.*} AND NOT PACKAGE_FIND_VERSION VERSION_GREATER $version)" \
        '  set(PACKAGE_VERSION_COMPATIBLE TRUE)' 'endif()' >"$1/$name_in_cmake-config-version.cmake" &&
        printf '%s\n' '# The targets numaplan::numaplan, the shared library, and numaplan::archive.' \
            'get_filename_component(numaplan_prefix "${CMAKE_CURRENT_LIST_DIR}/../../.." ABSOLUTE)' \
            'if(NOT TARGET numaplan::numaplan)' '  add_library(numaplan::numaplan SHARED IMPORTED)' \
            '  set_target_properties(numaplan::numaplan PROPERTIES' "    IMPORTED_SONAME $name" \
            "    IMPORTED_LOCATION \"$prefix/lib/$stem.so.$version\"" \
            "    INTERFACE_INCLUDE_DIRECTORIES \"$prefix/include\")" \
            '  add_library(numaplan::archive STATIC IMPORTED)' \
            '  set_target_properties(numaplan::archive PROPERTIES' \
            "    IMPORTED_LOCATION \"$prefix/lib/$stem.a\"" '    INTERFACE_LINK_LIBRARIES pthread' \
            "    INTERFACE_INCLUDE_DIRECTORIES \"$prefix/include\")" 'endif()' >"$1/$name_in_cmake-config.cmake"
}

# Makes the wheel of the Python package, with the library in it, where there is a Python.
make_wheel() {
    command -v python3 >/dev/null || return 0
    rm -f "$2"/numaplan-*.whl
    python3 -B "$top/python/wheels.py" "$1" "$2" >/dev/null
}

# Copies the crate for Rust, which finds the library in PREFIX/lib.
crate_in() {
    local file crate=$1/share/numaplan/rust/numaplan
    for file in "$top/rust/numaplan/"{Cargo.toml,build.rs,src/*.rs,examples/*.rs}; do
        install -D -m 644 "$file" "$crate/${file#"$top/rust/numaplan/"}" || return
    done
}

# Compiles the modules that numaplan-emulate imports for the Python that it takes: starts are
# quicker then.
compile_in() {
    local python
    for python in /usr/bin/python3.1[0-9] /usr/local/bin/python3.1[0-9] python3; do
        [ ! -x "$python" ] || break
    done
    ! command -v "$python" >/dev/null || "$python" -IS -m compileall -q "$1/share/numaplan"
}

# Copies numaplan-emulate and numaplan-record, which stand on the library in PREFIX, with their texts.
emulate_in() {
    local prefix=$1 places='s@\btools/([a-z]+-)@numaplan-\1@g; s@\bdocs/([A-Za-z])@\1@g'
    install -D -m 644 -t "$prefix/share/numaplan/emulate" "$top/tools/emulate/"*.py &&
        install -D -m 755 -t "$prefix/bin" "$top/tools/numaplan-emulate" "$top/tools/numaplan-record" &&
        sed -E "$places" "$top/tools/script-from-strace" |
        install -D -m 755 /dev/stdin "$prefix/bin/numaplan-script-from-strace" &&
        install -D -m 644 -t "$prefix/share/man/man1" "$top/docs/numaplan-emulate.1" &&
        echo '.so man1/numaplan-emulate.1' |
        install -D -m 644 /dev/stdin "$prefix/share/man/man1/numaplan-record.1" &&
        sed -E "$places" "$top/docs/EMULATE.md" |
        install -D -m 644 /dev/stdin "$prefix/share/doc/numaplan/EMULATE.md" &&
        compile_in "$prefix"
}

# Copies libnumaplan(3), with a page for each call that leads there.
pages_in() (
    cd "$1/share/man/man3" && umask 022 || return
    install -m 644 "$top/docs/libnumaplan.3" .
    for call in $(grep -ohE '\bnp_[a-z_]+\(' "$top/c/numaplan"{,_[!m]*}.h | tr -d '(' | sort -u); do
        echo '.so man3/libnumaplan.3' >"$call.3" || return
    done
)

# Puts archive, shared library with the usual links, header, numaplan.pc, Python module and what
# stands on them in folders in PREFIX, and nothing elsewhere; of a library that is proved the wheel
# and the crate for Rust too.
library_in() {
    local prefix=$1 kind stem version name work made state='proved'
    name_library "$2"
    [ -n "$prefix" ] || { say "usage: ./numaplan library [--unproved] PREFIX" && exit 2; }
    command -v rt >/dev/null || { say "rt, which builds the library, isn't in PATH" && exit 1; }
    [ "$kind" = library ] || state='not proved'
    made=${NUMAPLAN_ARCHIVE:-} # (built already, as tests/library/archive does)
    if [ -n "$made" ]; then
        state="of $made"
    else
        need_library
        made=$out/$kind/libnumaplan_c.a
    fi
    work=$(mktemp -d) || exit 1
    link_library "$made" "$work" && write_pc "$prefix" "$state" >"$work/${stem#lib}.pc" &&
        write_cmake "$work" || exit 1
    install -D -m 644 "$work/$stem.a" "$prefix/lib/$stem.a" &&
        install -D -m 755 "$work/$stem.so" "$prefix/lib/$stem.so.$version" &&
        ln -sf "$stem.so.$version" "$prefix/lib/$name" &&
        ln -sf "$name" "$prefix/lib/$stem.so" &&
        install -D -m 644 -t "$prefix/lib/pkgconfig" "$work/${stem#lib}.pc" &&
        install -D -m 644 -t "$prefix/lib/cmake/${stem#lib}" "$work/"*.cmake &&
        install -D -m 644 -t "$prefix/include" "$top/c/"*.h &&
        install -D -m 644 -t "$prefix/share/numaplan" "$top/c/tsan.supp" &&
        mkdir -p "$prefix/share/man/man3" && pages_in "$prefix" &&
        install -D -m 644 -t "$prefix/share/numaplan/numaplan" "$top/python/numaplan/"*.{py,typed} &&
        install -D -m 755 -t "$prefix/share/numaplan/numaplan" "$top/tools/machine-line" &&
        { [ "$kind" != library ] ||
            { make_wheel "$work/$stem.so" "$prefix/share/numaplan" && crate_in "$prefix"; }; } &&
        emulate_in "$prefix" || exit 1
    rm -rf "$work"
    say "in $prefix: the library ($state), in lib, include and share/numaplan;" \
        'bin/numaplan-emulate and numaplan-record'
}

# Sees to it that the library of this kind stands.
need_library() {
    if [ "$kind" = library ]; then
        need_proved library
    elif ! is_current "$kind" && ! make_unproved "$kind"; then
        say "the C library can't be compiled and kept: ${fault:-its sources change}"
        exit 1
    fi
}

# Tells where the shared library lies that serves this work tree, as numaplan-emulate asks: the one
# that is proved and current, or else the one without a proof, which is made where it has to be.
tell_library() {
    local kind stem version name shared work
    name_library library
    is_current library || name_library unproved-library
    need_library
    shared=$out/$kind/$name
    if [ ! -e "$shared" ]; then
        work=$(mktemp -d -p "$out/$kind") && link_library "$out/$kind/libnumaplan_c.a" "$work" &&
            mv -T "$work/$stem.so" "$shared" || exit 1
        rm -rf "$work"
    fi
    echo "$shared"
}
