#!/usr/bin/env bash
# A first look: proves the engine, builds the tool `manual` over it, and searches the example manual with it.
set -euo pipefail
cd "$(dirname "${BASH_SOURCE[0]}")/.."

bash examples/build.sh jullpinay
echo "Building the tool: some twenty seconds." >&2
cargo build --offline --release --quiet --manifest-path manual/Cargo.toml --target-dir manual/target
mkdir -p target/bin
cp manual/target/release/manual target/bin/

search='"cam" ftand ftnot "cover" same sentence ordered window 6 words'
echo "\$ target/bin/manual search examples/manual.md '$search'"
target/bin/manual search examples/manual.md "$search"
