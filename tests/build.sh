# How programs in C and C++ are built over the archive, for the scripts of tests and demo to source from the repository's root.
# The archive is for x86-64, as the kit is.
kit=$(dirname "$(rt doc)")/toolchain
archive=target/staticlib/libexport.a

# The archive, proved: that of crate `export_c`, under the name that hosts link.
build_archive() {
    mkdir -p target/staticlib target/tests
    (cd crates/export_c && rt lib) >target/staticlib.log 2>&1 || { tail -n 3 target/staticlib.log; return 1; }
    cp crates/export_c/out/libexport_c.a "$archive"
    hold_needs "$archive"
}

# hold_needs ARCHIVE: fails where it asks its host for a name beyond those of docs/HOST.md. One that a member of it has is not asked of the host.
hold_needs() {
    local names beyond
    names=$(nm --format=posix "$1") || return 1
    beyond=$(awk '$2 ~ /^[Uwv]$/ { asked[$1]; next } $2 ~ /^[A-Z]$/ { has[$1] }
        END { for (name in asked) if (!(name in has) && name != "memcpy" && name != "memset") print name }' <<<"$names" | sort | paste -s -d " ")
    [ -z "$beyond" ] || { echo "the archive asks its host for more than memcpy and memset: $beyond"; return 1; }
}

# compile_kit SOURCE: to target/tests, by the compiler that makes the archive too.
compile_kit() {
    "$kit/bin/clang" --target=x86_64-unknown-linux-gnu -O2 -Wall -Wextra -fPIC -isystem "$("${CC:-cc}" -print-file-name=include)" \
        -isystem /usr/include/x86_64-linux-gnu -isystem /usr/include -c -o "target/tests/$(basename "$1" .c).o" "$1"
}

# link_kit PROGRAM WORD...: a program of objects and the archive, with the kit's libc. All names are bound at its start.
link_kit() {
    local program=$1 lib=$kit/lib
    shift
    "$kit/bin/ld.lld" -pie -z now -o "target/tests/$program" "$lib/Scrt1.o" "$lib/crti.o" "$lib/crtbeginS.o" "$@" "$archive" \
        "$lib/libc.so.6" "$lib/libc_nonshared.a" "$lib/libgcc.a" "$lib/crtendS.o" "$lib/crtn.o" --dynamic-linker "$lib/ld-linux-x86-64.so.2"
}

# run_kit PROGRAM ARG...: runs it, with the kit's libc.
run_kit() {
    local program=$1 lib=$kit/lib
    shift
    "$lib/ld-linux-x86-64.so.2" --library-path "$lib" "target/tests/$program" "$@"
}

# run_c SOURCE ARG...: one program over the archive, by the system's compiler.
run_c() {
    local source=$1 name compiler=${CC:-cc}
    name=$(basename "$1" .c)
    case $1 in *.cpp) compiler=${CXX:-c++} ;; esac
    shift
    "$compiler" -O2 -Wall -Wextra -o "target/tests/$name" "$source" "$archive"
    "target/tests/$name" "$@"
}
