#!/usr/bin/env bash
# A first look: document 01's search '10 and 20, window 3' in its section of six tokens, answered by the program ftlist.
set -euo pipefail
cd "$(dirname "${BASH_SOURCE[0]}")/.."

words=(10 20 30 10 40 20)
sentences=(1 1 1 2 2 2)
kinds=(0 1 0 1 3 7)
operands=(10 1 20 1 0 3)

bash examples/build.sh ftlist

# a row of a table: a name, then numbers
row() {
  printf '  %-9s' "$1"
  shift
  printf '%4d' "$@"
  echo
}

# numbers as ftlist reads them: 32 bits each, the lowest byte first
bytes() {
  local n
  for n in "$@"; do
    printf '%b' "$(printf '\\x%02x' $((n & 255)) $((n >> 8 & 255)) $((n >> 16 & 255)) $((n >> 24 & 255)))"
  done
}

# a place is paragraph × 65,536 + sentence; all tokens stand in paragraph 1
places=()
for sentence in "${sentences[@]}"; do
  places+=($((65536 + sentence)))
done

echo "The section: six words, each given by its number. Sentence 1 ends at position 3, sentence 2 at position 6."
echo
row position 1 2 3 4 5 6
row word "${words[@]}"
row sentence "${sentences[@]}"
echo
echo "The search: 10 and 20, within a window of 3 words. As codes, read from left to right: the word 10, as a phrase of 1 word;"
echo "the word 20, as a phrase of 1 word; and; window of 3 words."
echo
row kind "${kinds[@]}"
row operand "${operands[@]}"
echo
echo "What ftlist prints:"
echo
bytes "${#words[@]}" "${words[@]}" "${places[@]}" "${#kinds[@]}" "${kinds[@]}" "${operands[@]}" | target/bin/ftlist | sed 's/^/  /'
echo
echo "How to read it: yes, 4 matches with 4 strings in all, then a line a match. +1-2 is a find from position 1 to position 2: a window"
echo "joins the words that it holds to one string. q1 is the phrase that the first of them was found for, here 10; c says here that the"
echo "words found cover the whole of it, n that they don't (docs/REFERENCE.md has the full rule)."
echo "1-2 is listed twice because two windows hold it: positions 0 to 2 (a window may begin before the section) and 1 to 3."
