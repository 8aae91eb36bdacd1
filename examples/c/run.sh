#!/bin/sh
# Builds the library for C and the examples in this folder, and runs them on the group in examples/real:
#
# - follow, by all strict rules, with receipts from a file and, if libcrypto is there, with signatures that it verifies: its
#   lines have to be those of expected.txt, and those of `mlscheck gate` if PROGRAM names a built program;
# - hostile: calls that a careless or hostile program may make, refused memory, many handles, all of it without strict rules
#   and with all of them.
#
# Where the compiler has them, AddressSanitizer and UndefinedBehaviorSanitizer watch the examples.
#
#     examples/c/run.sh [FOLDER]     with the library that tools/library has built in FOLDER; without, it is built
set -eu

library=${1:+$(cd -- "$1" && pwd)}
cd -- "$(dirname -- "$0")/../.."
made=$(mktemp -d)
trap 'rm -rf -- "$made"' EXIT
cc=${CC:-cc}
flags="-std=c99 -O1 -g -Wall -Wextra -Werror"
wraps="-Wl,--wrap=malloc,--wrap=realloc,--wrap=free"
info=examples/real/epoch-1.info
log=examples/real/handshakes.log
receipts=examples/real/receipts.txt

if [ -z "$library" ]; then
    library=$made
    tools/library "$library" >"$made/built"
fi

echo 'int main(void) { return 0; }' >"$made/empty.c"
sanitizers=
if "$cc" -fsanitize=address,undefined -o "$made/empty" "$made/empty.c" 2>/dev/null && "$made/empty"; then
    sanitizers="-fsanitize=address,undefined -fno-sanitize-recover=all"
fi

build() {
    # shellcheck disable=SC2086
    "$cc" $flags $sanitizers "$@"
}

# The messages with their receipts from a file, and each one forged before it.
build -o "$made/follow" examples/c/follow.c "$library/libmls_check.a"
"$made/follow" "$info" "$log" "$receipts" >"$made/plain"
"$made/follow" "$info" "$log" "$receipts" forge >"$made/forged"
cmp "$made/plain" examples/c/expected.txt
cmp "$made/forged" examples/c/expected.txt
echo "follow: the verdicts on $(grep -c '^accepted' "$made/plain") messages are the expected ones"

# The same with true signatures.
if build -DMLS_WITH_CRYPTO -o "$made/verify" examples/c/follow.c "$library/libmls_check.a" -lcrypto 2>"$made/errors"; then
    "$made/verify" "$info" "$log" >"$made/plain"
    "$made/verify" "$info" "$log" forge >"$made/forged"
    cmp "$made/plain" examples/c/expected.txt
    cmp "$made/forged" examples/c/expected.txt
    echo "follow: and so they are if libcrypto verifies the signatures"
else
    echo "follow: not tried with libcrypto, which is not here"
fi

# The program, if PROGRAM names it.
if [ -n "${PROGRAM-}" ]; then
    examples/gate.py --info "$info" --log "$log" >"$made/gate"
    cmp "$made/gate" examples/c/expected.txt
    echo "follow: and so does mlscheck gate print them"
fi

# Hostile calls.
set -- "$info" "$log" "$receipts" examples/real/epoch-8.context examples/real/epoch-8.tree
build "$wraps" -o "$made/hostile" examples/c/hostile.c "$library/libmls_check.a"
"$made/hostile" "$@"
[ -z "$sanitizers" ] || echo "hostile: no sanitizer has found anything"
