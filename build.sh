#!/bin/sh
# Proves and builds what leaves the repository: the lister, target/bin/lister, and the archive of the exported calls,
# target/staticlib/libembed.a.
set -eu
cd "$(dirname "$0")"
mkdir -p target/bin target/staticlib
(cd crates/lister && rt run </dev/null >/dev/null)
cp crates/lister/out/lister target/bin/lister
(cd crates/embed_c && rt lib)
cp crates/embed_c/out/libembed_c.a target/staticlib/libembed.a
