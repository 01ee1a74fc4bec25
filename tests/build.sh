# Builds the reference and the comparisons. Sourced after machine.sh, with $out set.
# The reference's own files stand apart, so that tests/broken can link wrong copies of them.

shared_files=(random inputs edges near_whole year program texts)
reference_files=(reference reference_year equations lines)
desk_files=(reference_records reference_runs reference_reply reference_words reference_desk)
talk_files=(desk_text desk_forms desk_records desk_lists desk_calls desk_runs desk_spoilt desk_talk)

# object FOLDER SOURCE compiler...: one object file.
object() {
    local folder=$1 source=$2
    shift 2
    mkdir -p "$folder"
    "$@" -O2 -c "$source" -o "$folder/$(basename "$source" .c).o"
}

# The objects that do not depend on the reference's text; x86-64 only for what is linked with the product.
build_shared() {
    local name
    for name in "${shared_files[@]}" host_run program_inputs whole_years host_lists host_years year_file \
        "${talk_files[@]}" desk_tally desk_talks desk_bad_lines desk_bad_text desk_lockstep; do
        object "$out/native" "$root/tests/$name.c" "${c_native[@]}"
    done
    for name in random inputs edges near_whole host_calls examples_of_01; do
        object "$out/x86" "$root/tests/$name.c" "${c_for_x86[@]}"
    done
}

# build_reference SOURCES OUT WORDS...: the reference from a folder, for both kinds of machine.
build_reference() {
    local sources=$1 to=$2 name
    shift 2
    for name in "${reference_files[@]}"; do
        object "$to/native" "$sources/$name.c" "${c_native[@]}" "$@"
        object "$to/x86" "$sources/$name.c" "${c_for_x86[@]}" "$@"
    done
}

# build_desk_reference SOURCES OUT WORDS...: what the desk needs beside it, for this machine only.
build_desk_reference() {
    local sources=$1 to=$2 name
    shift 2
    for name in "${desk_files[@]}"; do
        object "$to/native" "$sources/$name.c" "${c_native[@]}" "$@"
    done
}

# objects_in FOLDER NAMES...: those object files, in the array `objects`.
objects_in() {
    local folder=$1 name
    shift
    objects=()
    for name in "$@"; do objects+=("$folder/$name.o"); done
}

# link_host OUT, link_program OUT and their like: one comparison with the reference built there.
link_host() {
    objects_in "$out/x86" host_calls random inputs edges near_whole
    "${c_for_x86[@]}" "${objects[@]}" "$1"/x86/{reference,equations}.o "$host_library" -o "$1/host_calls"
}

link_examples() {
    objects_in "$out/x86" examples_of_01 random inputs
    "${c_for_x86[@]}" "${objects[@]}" "$1"/x86/{reference,reference_year,equations,lines}.o "$host_library" -o "$1/examples_of_01"
}

# link_native OUT NAME OBJECTS...: the driver NAME, with these objects beside the shared ones.
link_native() {
    local to=$1 name=$2
    shift
    objects_in "$out/native" "$@" "${shared_files[@]}"
    "${c_native[@]}" "${objects[@]}" "$to"/native/{reference,reference_year,equations,lines}.o -o "$to/$name"
}

link_program() { link_native "$1" program_inputs; }
link_years() { link_native "$1" whole_years; }
link_host_lists() { link_native "$1" host_lists host_run; }
link_host_years() { link_native "$1" host_years host_run; }

# link_desk OUT NAME OBJECTS...: the driver NAME of the desk, with these objects and the reference's desk built there.
link_desk() {
    local to=$1 name=$2 reference
    shift
    objects_in "$to/native" "${reference_files[@]}" "${desk_files[@]}"
    reference=("${objects[@]}")
    objects_in "$out/native" "$@" "${talk_files[@]}" "${shared_files[@]}"
    "${c_native[@]}" "${objects[@]}" "${reference[@]}" -o "$to/$name"
}

link_desk_talks() { link_desk "$1" desk_talks desk_tally; }
link_desk_bad_text() { link_desk "$1" desk_bad_text desk_bad_lines; }
link_desk_lockstep() { link_desk "$1" desk_lockstep; }

# build_reference_program OUT WORDS...: the reference as a program, which the bench times; x86-64 like the product.
build_reference_program() {
    local to=$1
    shift
    "${c_for_x86[@]}" -O3 "$@" "$root"/tests/{reference_main,reference,reference_year,equations,lines}.c -o "$to"
}

# build_reference_desk OUT WORDS...: the reference's desk as a program, for this machine.
build_reference_desk() {
    local to=$1 name sources=()
    shift
    for name in reference_desk_main "${desk_files[@]}" "${reference_files[@]}"; do sources+=("$root/tests/$name.c"); done
    "${c_native[@]}" -O2 "$@" "${sources[@]}" -o "$to"
}

# link_reference_desk OUT: the same from the objects built there.
link_reference_desk() {
    objects_in "$1/native" reference_desk_main "${desk_files[@]}" "${reference_files[@]}"
    "${c_native[@]}" "${objects[@]}" -o "$1/reference_desk"
}

# build_hosts: the examples host.c and host.rs. rustc comes without an x86-64 target on Arm, so there host.rs is linked with
# the reference in the library's place: that tries its own part of the work, though not the library.
build_hosts() {
    local library
    rm -rf "$out/hosts"
    mkdir -p "$out/hosts"
    "${c_for_x86[@]}" -O2 "$root/examples/host.c" "$host_library" -o "$out/hosts/c"
    if ! command -v rustc > /dev/null; then
        echo "  host.rs is left out: there is no rustc here"
        return
    fi
    library=$(dirname "$host_library")
    if [ "$machine" != x86_64 ]; then
        echo "  host.rs is linked with the reference here, in place of the library, which is for x86-64"
        library=$out/hosts/library
        object "$library" "$root/tests/reference_library.c" "${c_native[@]}" -I "$root/include"
        ar rcs "$library/libhost.a" "$library/reference_library.o" "$out"/native/{reference,equations}.o
    fi
    rustc --edition 2021 -O -L "$library" "$root/examples/host.rs" -o "$out/hosts/rs"
}

# host_programs: what runs them, in the arrays `host_c`, `host_rs` (empty where it was left out), and both in `hosts`.
host_programs() {
    host_c=("${x86[@]}" "$out/hosts/c")
    host_rs=()
    hosts=("${host_c[@]}")
    [ -x "$out/hosts/rs" ] || return 0
    host_rs=("$out/hosts/rs")
    hosts+=(-- "${host_rs[@]}")
}
