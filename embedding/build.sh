#!/bin/sh
# Sees that the archive needs memcpy and memset from outside and nothing else. Builds the programs of this folder against
# it. Runs the example on the front desk's card and the large hall's and compares what it writes with example.out; runs
# layout and limits, which hold the header against the archive. measure.c is run by hand, for docs/EMBEDDING.md.
set -eu
cd "$(dirname "$0")/.."
[ -e target/staticlib/libembed.a ] || sh build.sh
needed=$(nm -u target/staticlib/libembed.a | sed -n 's/^ *U //p' | sort -u | tr '\n' ' ')
if [ "$needed" != "memcpy memset " ]; then
  echo "the archive needs other names than memcpy and memset: $needed" >&2
  exit 1
fi
mkdir -p target/embedding
for program in example layout limits measure; do
  gcc -std=c99 -O2 -Wall -Wextra -Werror -pthread -I embedding "embedding/$program.c" target/staticlib/libembed.a \
    -o "target/embedding/$program"
done
target/embedding/example examples/front-desk.txt examples/large-hall.txt >target/embedding/example.out
cmp target/embedding/example.out embedding/example.out
target/embedding/layout
target/embedding/limits
