#!/bin/sh
# Times the check of images of a million nodes beside sha256sum of the same files, in one run: a session of 100,000 revisions of all
# commands with rows of all kinds, and one insertion of 500,000 literals. With each, the rows verified a second, and the memory held
# beside the image. Last, the image of 100,000 bytes that is the dearest by the number of docs/FORMAT.md: its check may take that many looks at nodes,
# and takes fewer. It builds the program where it is not built, and makes the images by bench/make_image.py.
set -eu
cd "$(dirname "$0")/.."
program=crates/cordkit/out/cordkit
[ -x "$program" ] || (cd crates/cordkit && rt run < stdin > /dev/null 2>&1)
image=$(mktemp)
source=$(mktemp)
trap 'rm -f "$image" "$source"' EXIT

# the best of five runs, in microseconds
best() {
    for _ in 1 2 3 4 5; do
        start=$(date +%s%N)
        "$@" > /dev/null
        end=$(date +%s%N)
        echo $(((end - start) / 1000))
    done | sort -n | head -n 1
}

# the most memory that a run held, in bytes
held() {
    python3 -c 'import resource, subprocess, sys
subprocess.run(sys.argv[1:], stdout=subprocess.DEVNULL, check=True)
print(resource.getrusage(resource.RUSAGE_CHILDREN).ru_maxrss * 1024)' "$@"
}

# Checks the image with the sources that are given.
measure() {
    "$program" check "$image" "$@"
    rows=$("$program" check "$image" "$@" | cut -d ' ' -f 6)
    bytes=$(wc -c < "$image")
    checked=$(best "$program" check "$image" "$@")
    hashed=$(best sha256sum "$image")
    echo "image      $(wc -c < "$image") bytes"
    echo "cordkit    $((checked / 1000)) ms, $((rows * 1000 / checked * 1000)) rows a second"
    echo "sha256sum  $((hashed / 1000)) ms; the check takes $((checked * 100 / hashed)) % of that"
    echo "memory     $(($(held "$program" check "$image" "$@") - bytes)) bytes more"
}

python3 bench/make_image.py source > "$source"
python3 bench/make_image.py session > "$image"
measure "$source"
python3 bench/make_image.py literals > "$image"
measure

# The dearest image of 100,000 bytes by the number of docs/FORMAT.md, once; then under a limit that is one lower, which refuses it.
looks=$(python3 bench/make_image.py dearest 2>&1 > "$image" | cut -d ' ' -f 1)
took() {
    start=$(date +%s%N)
    "$program" check "$@" || true
    echo "           $((($(date +%s%N) - start) / 1000000)) ms"
}
echo "dearest    $(wc -c < "$image") bytes, at most $looks looks"
took "$image"
took --at-most $((looks - 1)) "$image"
