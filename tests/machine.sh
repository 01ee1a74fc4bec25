# How the product's x86-64 program and library are run on this machine. Sourced, with $root set.
# FLARE_PROGRAM, MONTHS_PROGRAM, DESK_PROGRAM and HOST_LIBRARY may name other programs and another library than those of target/.

machine=$(uname -m)
flare_program=${FLARE_PROGRAM:-$root/target/bin/flare}
months_program=${MONTHS_PROGRAM:-$root/target/bin/months}
desk_program=${DESK_PROGRAM:-$root/target/bin/desk}
host_library=${HOST_LIBRARY:-$root/target/staticlib/libhost.a}

# x86: what stands in front of any x86-64 program; flare, months, desk: the product's programs, which need their loader too on Arm;
# cross: the compiler for x86-64.
case $machine in
x86_64)
    x86=()
    flare=("$flare_program")
    months=("$months_program")
    desk=("$desk_program")
    cross=gcc
    ;;
aarch64)
    tools=$(dirname "$(dirname "$(readlink -f "$(command -v rt)")")")/on/$machine/toolchain
    x86=("$tools/bin/qemu-x86_64")
    loader=("${x86[@]}" "$tools/lib/ld-linux-x86-64.so.2" --library-path "$tools/lib")
    flare=("${loader[@]}" "$flare_program")
    months=("${loader[@]}" "$months_program")
    desk=("${loader[@]}" "$desk_program")
    cross=x86_64-linux-gnu-gcc
    ;;
*)
    echo "tests: no way to run x86-64 programs on $machine is known" >&2
    exit 2
    ;;
esac

product_is_there() {
    local there=0
    [ -f "$flare_program" ] || { echo "tests: $flare_program is missing: make it with 'tools/build flare'" >&2; there=1; }
    [ -f "$months_program" ] || { echo "tests: $months_program is missing: make it with 'tools/build months'" >&2; there=1; }
    [ -f "$desk_program" ] || { echo "tests: $desk_program is missing: make it with 'tools/build desk'" >&2; there=1; }
    [ -f "$host_library" ] || { echo "tests: $host_library is missing: make it with 'tools/build host'" >&2; there=1; }
    [ -f "$root/include/flare.h" ] || { echo "tests: $root/include/flare.h is missing" >&2; there=1; }
    return $there
}

# On Arm Debian's cross compiler, which is installed where it is missing.
compiler_is_there() {
    local packages=(gcc-x86-64-linux-gnu libc6-dev-amd64-cross)
    if ! command -v "$cross" > /dev/null && [ "$(id -u)" = 0 ]; then
        echo "tests: installing ${packages[*]}" >&2
        apt-get install -y "${packages[@]}" >&2 || { apt-get update >&2 && apt-get install -y "${packages[@]}" >&2; } || true
    fi
    command -v "$cross" > /dev/null || {
        echo "tests: $cross is missing: apt-get install -y ${packages[*]}" >&2
        return 1
    }
}

warnings=(-Wall -Wextra -Werror)
# Static, so that the emulator needs nothing else to run what is linked with the product's library.
c_for_x86=("$cross" -static -std=gnu11 "${warnings[@]}" -I "$root/tests" -I "$root/include")
c_native=(gcc -std=gnu11 "${warnings[@]}" -I "$root/tests")
