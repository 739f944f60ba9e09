#!/bin/sh
# version.sh: prints the version of cordkit, as the first heading of CHANGELOG.md has it; a ~ and a word follow where it is not released.
set -eu
cd "$(dirname "$0")/.."
sed -n 's/^## \([0-9.]*\) (unreleased)$/\1~unreleased/p; t; s/^## \([0-9.]*\) .*/\1/p' CHANGELOG.md | head -n 1
