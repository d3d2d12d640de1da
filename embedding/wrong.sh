#!/bin/sh
# Shows that layout.c and limits.c find a wrong header: every two fields of a struct in each other's place, every number
# field of another width, every array one longer and one shorter, every named number one higher, and every lent buffer
# with elements of another width. Each time the header's own line on sizes or a buffer's type stops the compiler, or the
# program finds faults. Two wrong widths cannot be told: counted.refusal comes back in a register whose other half is
# padding, and behind reading.refusal the archive writes the padding as 0, so that the wider number is the same.
set -eu
cd "$(dirname "$0")/.."
header=embedding/helvemoik.h
wrong=target/embedding/wrong
mkdir -p "$wrong"
cp embedding/layout.c embedding/limits.c embedding/expect.h "$wrong"
stopped=0
found=0

# must_find PROGRAM.. WHAT: the wrong header that is in place does not pass one of the programs.
must_find() {
  if cmp -s "$header" "$wrong/helvemoik.h"; then
    echo "the header is as it was" >&2
    exit 1
  fi
  while [ $# -gt 1 ]; do
    if ! gcc -std=c99 -O0 -Werror=incompatible-pointer-types "$wrong/$1.c" target/staticlib/libembed.a -o "$wrong/$1" \
      2>"$wrong/errors"; then
      grep -q -e helvemoik_layout -e 'incompatible pointer' "$wrong/errors" && stopped=$((stopped + 1)) && return
      cat "$wrong/errors" >&2
      exit 1
    fi
    "$wrong/$1" >"$wrong/faults" || { found=$((found + 1)) && return; }
    shift
  done
  echo "not found: $1" >&2
  exit 1
}

# The fields of all structs and the named numbers: each one's line, and its struct or "enum".
awk '/^(struct helvemoik_[a-z]*|enum) \{$/ { name = $1 == "enum" ? "enum" : $2; next } /^};/ { name = "" }
  name == "enum" && / = / { print NR, name } name && name != "enum" && /;$/ { print NR, name }' \
  "$header" >"$wrong/lines"

while read -r one struct; do
  if [ "$struct" = enum ]; then
    sed "${one}s/ = \([^,]*[^, ]\)/ = (\1) + 1/" "$header" >"$wrong/helvemoik.h"
    must_find limits layout "line $one is one higher"
    continue
  fi
  while read -r other same; do
    if [ "$same" = "$struct" ] && [ "$one" -lt "$other" ]; then
      sed -n "${other}p" "$header" >"$wrong/line"
      sed -e "${one}{r $wrong/line
d}" "$header" | sed -e "${other}s/.*/$(sed -n "${one}p" "$header")/" >"$wrong/helvemoik.h"
      must_find layout "lines $one and $other are swapped"
    fi
  done <"$wrong/lines"
  field=$(sed -n "${one}p" "$header")
  case "$struct $field" in
    *" struct "* | "helvemoik_counted     uint32_t refusal;" | "helvemoik_reading     uint32_t refusal;") ;;
    *)
      sed "${one}s/uint32_t/uint64_t/;${one}s/size_t/uint32_t/;${one}s/uint8_t/uint16_t/" "$header" \
        >"$wrong/helvemoik.h"
      must_find layout "line $one is of another width"
      ;;
  esac
  case "$field" in
    *"["*)
      for by in "+ 1" "- 1"; do
        sed "${one}s/]/ $by]/" "$header" >"$wrong/helvemoik.h"
        must_find layout "the array of line $one has so many places: $by"
      done
      ;;
  esac
done <"$wrong/lines"

# The calls have one lent buffer to a line.
for line in $(grep -n 'uint[0-9]*_t \*' "$header" | cut -d : -f 1); do
  for width in 8 16 32; do
    sed "${line}s/uint[0-9]*_t \*/uint${width}_t */" "$header" >"$wrong/helvemoik.h"
    if ! cmp -s "$header" "$wrong/helvemoik.h"; then
      must_find layout limits "the buffer of line $line has elements of $width bits"
    fi
  done
done
echo "wrong headers: $stopped stopped by the compiler, $found found"
