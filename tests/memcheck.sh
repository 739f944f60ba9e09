#!/bin/sh
# Runs each test of ropes, which use the pool's blocks, under valgrind's memcheck, where it is installed: no error, and no leak.
# With a word, the built tests' program of that name. The last line is 'N passed, M failed'.
set -u
cd "$(dirname "$0")/../crates/rope_tests" || exit 1
program=${1:-out/rope_tests_tests}
if ! command -v valgrind > /dev/null; then
    echo "there is no valgrind here: nothing was tried"
    echo "0 passed, 0 failed"
    exit 0
fi
[ -x "$program" ] || rt test > /dev/null 2>&1
passed=0
failed=0
for test in $("$program" --list | sed -n 's/: test$//p'); do
    if valgrind --quiet --leak-check=full --show-leak-kinds=all --errors-for-leak-kinds=all --error-exitcode=9 \
        "$program" "$test" < /dev/null; then
        passed=$((passed + 1))
    else
        failed=$((failed + 1))
        echo "FAILED: $test"
    fi
done
echo "$passed passed, $failed failed"
[ "$failed" = 0 ] && [ "$passed" != 0 ]
