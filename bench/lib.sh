# shellcheck shell=sh
# What the benchmarks share: how the programs are built, and how a run is timed. A script that reads this file stands in the repository's
# root. Files of a run go to $room.
root=$(pwd)
. "$root/tests/lib.sh"
help_if_asked "$root/bench/$(basename "$0")" "$@"
need_compiler
room=$(mktemp -d)
trap 'rm -rf "$room"' EXIT

# Builds the programs `rattle`, of crates/cipher_bench, and `openssl`.
build() { # SOURCE-IN-C
    [ "$(uname -m)" = x86_64 ] ||
        fail "The toolchain compiles programs for x86-64 alone, and what an emulator takes says nothing; this is $(uname -m)."
    command -v rt >/dev/null || fail "The Rattle toolchain (rt), which makes the program, is not on the path."
    need_openssl
    (cd crates/cipher_bench && rt run </dev/null) >"$room/check" 2>&1 || { # with no argument it says how it is used
        cat "$room/check" >&2
        exit 1
    }
    cp crates/cipher_bench/out/cipher_bench "$room/rattle"
    "$compiler" -O2 -o "$room/openssl" "$1" -lcrypto
}

run() { # PROGRAM ARGUMENT..
    program=$room/$1
    shift
    "$program" "$@"
}

# The ns that a program takes for a run.
elapsed() { # PROGRAM ARGUMENT..
    began=$(date +%s%N)
    run "$@" >"$room/$1.out"
    echo $(($(date +%s%N) - began))
}

# Times a run of a program with the count 0, which is all that is not the chain, and one with the chain.
round() { # COUNT PROGRAM ARGUMENT..
    count=$1
    shift
    elapsed "$@" 0 >>"$room/$1.start"
    elapsed "$@" "$count" >>"$room/$1.whole"
}

# The least of a program's times for its chain, less the least with the count 0. The times are then forgotten.
best() { # PROGRAM
    whole=$(sort -n "$room/$1.whole" | head -n 1)
    start=$(sort -n "$room/$1.start" | head -n 1)
    rm "$room/$1.whole" "$room/$1.start"
    echo $((whole - start))
}
