#!/bin/sh
# The C library from a C program's side. Installs it under target/, builds tests/replay.c against the installed tree as C and as C++, plain
# and with the address and undefined-behaviour sanitizers where the compiler has them, and replays document 01's worked input and the
# test vectors; the listings must be those kept. What each program compares beside stands in tests/replay.c. Run from anywhere. The library
# is x86-64: elsewhere the cross compiler and the kit's emulator serve. Last line 'N passed, M failed'; exit status 1 on any failure.
set -eu
cd "$(dirname "$0")/.."
out=target/replay
tree=$PWD/target/replay-install
passed=0
failed=0
run=
static=
if [ "$(uname -m)" = x86_64 ]; then
    c=${CC:-cc}
    cpp=${CXX:-c++}
else
    c=x86_64-linux-gnu-gcc
    cpp=x86_64-linux-gnu-g++
    static=-static
    rt=$(readlink -f "$(command -v rt)")
    run=${RATTLE_HOME:-$(cd "$(dirname "$rt")/.." && pwd -P)}/on/$(uname -m)/toolchain/bin/qemu-x86_64
fi
mkdir -p "$out"
for tool in make "$c"; do
    command -v "$tool" >/dev/null 2>&1 || { echo "replay: no $tool: skipped"; exit 0; }
done
rm -rf "$tree"
make install PREFIX="$tree" DESTDIR= >"$out/log" 2>&1 || { cat "$out/log"; echo "0 passed, 1 failed"; exit 1; }

if command -v pkg-config >/dev/null 2>&1; then
    export PKG_CONFIG_PATH="$tree/lib/pkgconfig"
    flags=$(pkg-config --cflags prs)
    libs=$(pkg-config --libs prs)
else
    echo "replay: no pkg-config: flags by hand"
    flags=-I$tree/include
    libs="-L$tree/lib -lprs"
fi

# hold NAME COMMAND..: one test; what it says is shown where it fails
hold() {
    name=$1
    shift
    if "$@" >"$out/said" 2>&1; then
        passed=$((passed + 1))
    else
        failed=$((failed + 1))
        echo "replay: $name"
        head -n 20 "$out/said"
    fi
}

# listing PROGRAM INPUT KEPT
listing() {
    $run "$1" <"$2" >"$out/listing" && diff "$3" "$out/listing"
}

# all_of WORDS COMPILER..: builds one program and replays everything with it
all_of() {
    words=$1
    shift
    before=$failed
    hold "$words does not build" "$@" -O2 -Wall -Wextra -Wpedantic -Werror $static $flags tests/replay.c $libs -o "$out/program"
    [ "$failed" -eq "$before" ] || return 0
    hold "$words: the worked input" listing "$out/program" crates/prs/stdin crates/prs/stdout
    for input in tests/vectors/*.in; do
        hold "$words: $input" listing "$out/program" "$input" "${input%.in}.out"
    done
    hold "$words: refusals" $run "$out/program" refusals
    rm -f "$out/program"
    echo "replay: $words: replayed"
}

# sanitizes COMPILER..: whether a program so built runs
sanitizes() {
    printf 'int main(void) { return 0; }\n' >"$out/empty.c"
    [ -z "$run" ] && "$@" -fsanitize=address,undefined "$out/empty.c" -o "$out/empty" >/dev/null 2>&1 && "$out/empty"
}

# both WORDS COMPILER..: plain and sanitized
both() {
    said=$1
    shift
    all_of "$said" "$@"
    if sanitizes "$@"; then
        all_of "$said, sanitized" "$@" -g -fsanitize=address,undefined -fno-sanitize-recover=all
    else
        echo "replay: $said: no sanitizers here: skipped"
    fi
}

# README's program, as a reader would take it
sed -n '/^```c$/,/^```$/p' README.md | sed '/^```/d' >"$out/readme.c"
hold "README's program does not build" "$c" -std=c11 -Wall -Wextra -Wpedantic -Werror $static $flags "$out/readme.c" $libs -o "$out/readme"
hold "README's program" $run "$out/readme"

both "as C11" "$c" -std=c11
if command -v "$cpp" >/dev/null 2>&1; then
    both "as C++17" "$cpp" -std=c++17 -x c++
else
    echo "replay: no $cpp: C++ skipped"
fi
echo "$passed passed, $failed failed"
[ "$failed" -eq 0 ]
