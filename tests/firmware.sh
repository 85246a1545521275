#!/bin/sh
# What firmware uses, with the static library: the header from C and C++, two images through losses of power, the Rust crate, the
# leak example in C and Rust, and the crate's random lists once more under valgrind. YOKEMANGO_LIB may name another folder that
# has libyokemango.a.
set -eu
cd "$(dirname "$0")/.."
export YOKEMANGO_LIB="${YOKEMANGO_LIB:-$PWD/target/staticlib}" CARGO_TARGET_DIR="$PWD/target/cargo"

for standard in c99 c17; do
    for program in tests/header examples/two_images; do
        cc -std=$standard -Wall -Wextra -pedantic -Werror -g -fsanitize=address,undefined -fno-sanitize-recover=all -Iinclude \
            -o "target/${program#*/}" $program.c -L"$YOKEMANGO_LIB" -lyokemango
        "target/${program#*/}" examples/leak.rule
    done
done
c++ -x c++ -std=c++11 -Wall -Wextra -pedantic -Werror -fsyntax-only include/yokemango.h

cc -std=c99 -Wall -Wextra -pedantic -Werror -O2 -Iinclude -o target/leak examples/leak.c -L"$YOKEMANGO_LIB" -lyokemango
target/leak examples/leak.rule | diff - examples/leak-notices.out
cd rust
cargo run --offline --quiet --example leak | diff - ../examples/leak-notices.out
echo "the leak example prints the same in C and in Rust"

cargo test --offline --quiet
program=$(cargo test --offline --no-run --test firmware --message-format=json 2>/dev/null | sed -n 's/.*"executable":"\([^"]*firmware[^"]*\)".*/\1/p')
valgrind --quiet --error-exitcode=1 "$program" 8 1
