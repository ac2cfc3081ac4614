#!/usr/bin/env bash
# Proves what a target is made of, then builds it: `examples/build.sh jullpinay` the archive target/staticlib/libjullpinay.a, `examples/build.sh ftlist`
# the program target/bin/ftlist. One that is newer than every file of the crates is left as it is. Says on standard error which crates are proved, as
# they come.
set -euo pipefail
cd "$(dirname "${BASH_SOURCE[0]}")/.."
crate=${1:-}
case $crate in
  jullpinay) crate=jullpinay_c command=lib made=libjullpinay_c.a target=target/staticlib/libjullpinay.a ;;
  ftlist) command=run made=ftlist target=target/bin/ftlist ;;
  *)
    echo "examples/build.sh jullpinay, or examples/build.sh ftlist" >&2
    exit 2
    ;;
esac

if [ -e "$target" ] && [ -z "$(find crates.txt crates -name out -prune -o -type f -newer "$target" -print -quit)" ]; then
  exit 0
fi
if ! command -v rt >/dev/null; then
  echo "There is no command rt: Rattle's kit is not installed, or not in PATH." >&2
  exit 1
fi
echo "Proving and building $crate and what it is made of: minutes the first time, seconds later on." >&2
said=$(mktemp)
trap 'rm -f "$said"' EXIT

progress() {
  local line name=
  while IFS= read -r line; do
    case $line in
      'crate '*': modules loaded='*)
        name=${line#crate }
        name=${name%%:*}
        ;;
      'logic=proved '*) echo "  proved: $name" >&2 ;;
    esac
  done
}

# (rt run also runs the program, here on no input)
if ! (cd "crates/$crate" && rt "$command" </dev/null) 2>&1 | tee "$said" | progress; then
  cat "$said" >&2
  exit 1
fi
mkdir -p "${target%/*}"
cp "crates/$crate/out/$made" "$target"
