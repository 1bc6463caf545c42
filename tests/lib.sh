# shellcheck shell=sh
# What the tests, the examples and the port share: the machine, the tools and the archive. A script that reads this file has set `root` to the
# repository's root; what is built goes to $room.
room=$root/target/tests
mkdir -p "$room"

fail() { # SENTENCE
    echo "$1" >&2
    exit 1
}

# What a script says of itself to --help: the comment at its head.
help_if_asked() { # SCRIPT [WORD..]
    script=$1
    shift
    for word in "$@"; do
        case $word in
        -h | --help)
            sed -n '2,/^[^#]/s/^# \{0,1\}//p' "$script"
            exit 0
            ;;
        esac
    done
}

# The programs are built for this machine and run on it; tests/port sets an emulator where they are for another.
compiler=${CC:-cc}
emulator=

run_program() { # PROGRAM ARGUMENT..
    if [ -n "$emulator" ]; then "$emulator" "$@"; else "$@"; fi
}

# Installs packages where that can be done.
install() { # PACKAGE..
    [ "$(id -u)" -eq 0 ] && command -v apt-get >/dev/null || return 1
    echo "installing $*"
    {
        DEBIAN_FRONTEND=noninteractive apt-get install -y --no-install-recommends "$@" ||
            { apt-get update && DEBIAN_FRONTEND=noninteractive apt-get install -y --no-install-recommends "$@"; }
    } >"$room/install.log" 2>&1
}

# Finds a tool or installs its packages; otherwise says in a sentence what is missing, and ends.
need_tool() { # COMMAND WHAT PACKAGE..
    tool=$1 what=$2
    shift 2
    command -v "$tool" >/dev/null || install "$@" || true
    command -v "$tool" >/dev/null ||
        fail "$what is missing ($tool), and could not be installed from here; as root: apt-get install $*"
}

# A C compiler that links C programs. One that the caller named has to be there.
need_compiler() {
    case $compiler in
    *[[:space:]]*) fail "CC has words in it ($compiler): name the compiler alone, as in CC=clang; tests/build takes flags." ;;
    esac
    [ -z "${CC:-}" ] || command -v "$compiler" >/dev/null || fail "CC names $compiler, and there is no such command."
    need_tool "$compiler" "A C compiler" gcc libc6-dev
}

# OpenSSL's libcrypto, 3.0 or later, with its headers: tried, not looked for; in a folder of this process, as two may ask at the same time.
has_openssl() {
    here=$room/openssl_here.$$
    mkdir -p "$here"
    printf '#include <openssl/evp.h>\nint main(void) { return EVP_MAC_fetch(0, "CMAC", 0) == 0; }\n' >"$here/try.c"
    "$compiler" -o "$here/try" "$here/try.c" -lcrypto >"$here/log" 2>&1 && run_program "$here/try" && found=0 || found=$?
    rm -rf "$here"
    return "$found"
}

need_openssl() {
    has_openssl || { install libssl-dev && has_openssl; } ||
        fail "OpenSSL's libcrypto (3.0 or later) is missing, or its headers, and could not be installed from here; as root: apt-get install libssl-dev"
}

# Sets `archive`: the one that was named; or that of this repository for this machine, which is made where it is not there or a source is
# newer. On x86-64 it is the toolchain's own, on Arm the port.
find_archive() { # [ARCHIVE]
    archive=${1:-${XISTALVO_ARCHIVE:-}}
    if [ -z "$archive" ]; then
        case $(uname -m) in
        x86_64) "$root/tools/archive" >&2 && archive=$root/target/staticlib/liblink_c.a ;;
        aarch64) "$root/tools/port" aarch64 >&2 && archive=$root/target/port/aarch64/libxistalvo.a ;;
        *) fail "No archive of the module was named, and the toolchain, which makes one, runs on x86-64 and aarch64; this is $(uname -m)." ;;
        esac || exit 1
    fi
    [ -f "$archive" ] || fail "There is no archive $archive."
    archive=$(readlink -f "$archive")
}
