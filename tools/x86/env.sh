# How programs for x86-64, which is what the library is built for, are built and run on this machine. To be sourced:
#   need_packages        installs the Debian packages that are missing
#   install_missing PACKAGES;   with_lists COMMAND   for packages that one script alone needs
#   x86_cc ARGS          the C compiler;   x86_run PROGRAM ARGS   runs what it made
#   x86_cargo ARGS       cargo, offline, for x86-64; its programs run through x86_run
#   need_archives WHO    proves and builds the library's archives where they are missing or older than a source
# On x86-64 itself these are gcc, the program and cargo. Elsewhere they are Debian's cross compilers, emulator and C library, and the archives come
# from an x86-64 machine, since `rt` runs there alone.
x86_here=$(cd "$(dirname "$(readlink -f "${BASH_SOURCE[0]}")")" && pwd)
x86_top=$(cd "$x86_here/../.." && pwd)
x86_made=$x86_top/suite/target/x86
export RATTLE_LIB=${RATTLE_LIB:-$x86_top/target/staticlib}
unset CARGO_TARGET_DIR CARGO_BUILD_TARGET_DIR # what is built is looked for in its own folder

if [ "$(uname -m)" = x86_64 ]; then
    need_packages() { install_missing gcc g++ valgrind python3 && { command -v cargo >/dev/null || install_missing cargo rustc; }; }
    x86_cc() { gcc "$@"; }
    x86_run() { "$@"; }
    x86_cargo() { cargo "$1" --offline "${@:2}"; }
    x86_bin=$x86_top/suite/target/release
else
    need_packages() {
        dpkg --print-foreign-architectures | grep -qx amd64 || { dpkg --add-architecture amd64 && apt-get update -qq; }
        install_missing rustc cargo libstd-rust-dev:amd64 gcc-x86-64-linux-gnu libc6-dev-amd64-cross qemu-user g++ python3
    }
    x86_cc() { x86_64-linux-gnu-gcc "$@"; }
    x86_run() { "$x86_here/run" "$@"; }
    x86_cargo() {
        RUSTC=/usr/bin/rustc RUSTDOC=/usr/bin/rustdoc CARGO_BUILD_TARGET=x86_64-unknown-linux-gnu \
            CARGO_TARGET_X86_64_UNKNOWN_LINUX_GNU_LINKER=x86_64-linux-gnu-gcc \
            CARGO_TARGET_X86_64_UNKNOWN_LINUX_GNU_RUNNER=$x86_here/run /usr/bin/cargo "$1" --offline "${@:2}"
    }
    x86_bin=$x86_top/suite/target/x86_64-unknown-linux-gnu/release
fi

install_missing() { # PACKAGES
    local missing=() name
    # a package that was removed may still be known to dpkg by its settings
    for name in "$@"; do dpkg-query -W -f '${db:Status-Status}\n' "$name" 2>/dev/null | grep -qx installed || missing+=("$name"); done
    [ ${#missing[@]} -eq 0 ] || with_lists apt_install "${missing[@]}"
}

with_lists() { # COMMAND; where the lists of packages are old, once more with new ones
    "$@" 2>/dev/null || { apt-get update -qq && "$@"; }
}

apt_install() { DEBIAN_FRONTEND=noninteractive apt-get install -y -qq --no-install-recommends "$@" >/dev/null; }

# Archives in a folder that the environment names are taken as they are. The Rust face is linked with both.
need_archives() { # WHO says so
    local name archive
    for name in bsmp_c bsmp_ask; do
        archive=$RATTLE_LIB/lib$name.a
        if [ "$RATTLE_LIB" = "$x86_top/target/staticlib" ]; then
            { need_packages && "$x86_top/tools/prove" "$name" "$1"; } </dev/null || return 1
        fi
        [ -f "$archive" ] || { echo "$1: $archive is not there" >&2; return 1; }
    done
}
