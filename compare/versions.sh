#!/usr/bin/env bash
# The times of two versions of the engine in one table: versions.sh BEFORE AFTER [LINKS]. BEFORE and AFTER are the tops
# of two checkouts, in each of which `sh build.sh` has written the archive.
#
# Where code lies moves a short call by more than a tenth. So the programs are linked several times, each time with the
# functions in another order, and the table has the middle ratio. All of it runs on one processor, by turns, so that
# what else the machine does strikes both versions.
set -euo pipefail
before=$(cd "$1" && pwd)
after=$(cd "$2" && pwd)
links=${3:-15}
programs=$(mktemp -d)
trap 'rm -rf "$programs"' EXIT

# One version's program, with its functions in the order that a seed gives.
link() {
  cd "$1/compare"
  cargo rustc --offline --release --quiet --bin turns -- -C "link-arg=-Wl,--shuffle-sections=.text*=$3"
  cp ../target/compare/release/turns "$programs/$2"
}

(cd "$after/compare" && cargo build --offline --release --quiet --bin versions)
pairs=()
for seed in $(seq "$links"); do
  (link "$before" "before-$seed" "$seed")
  (link "$after" "after-$seed" "$seed")
  pairs+=("$programs/before-$seed" "$programs/after-$seed")
done
taskset -c 0 "$after/target/compare/release/versions" "${pairs[@]}"
