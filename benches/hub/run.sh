#!/bin/bash
# Builds the program, makes the scripts, runs it on them and prints what a byte of each costs. See README.md.
#
# run.sh [PROGRAM]: with PROGRAM nothing is built.
set -e
here=$(cd "$(dirname "$0")" && pwd)
top=$(cd "$here/../.." && pwd)
work=$(mktemp -d)
trap 'rm -rf "$work"' EXIT
program=$1
if [ -z "$program" ]; then
  cd "$top/crates/njehub"
  rt run -- replay < /dev/null > "$work/build" 2>&1 || { cat "$work/build"; exit 1; }
  program=$top/crates/njehub/out/njehub
fi
program=$(realpath "$program")
cd "$work"

# The instructions of a whole run, for each byte of its script.
cost() {
  python3 "$here/scripts.py" . "$1" "$2"
  valgrind --tool=callgrind --callgrind-out-file=/dev/null "$program" replay --tables "$1.toml" < "$1.script" \
    2> told > /dev/null || { cat told; exit 1; }
  awk -v bytes="$(wc -c < "$1.script")" '/Collected/ { printf "%.1f", $NF / bytes }' told
}

# Whether what is printed has all of some texts.
has() {
  "$program" replay --tables "$1.toml" < "$1.script" > printed
  for text in "${@:2}"; do
    grep -q "$text" printed || return 1
  done
}

row() {
  large=$(cost "$1" 1048000)
  note=
  has "$1" "${@:4}" || note='not yet: the hub does not do all of it'
  small=$(cost "$1" 250000)
  printf '%-9s %8s %8s %8s %8s   %s\n' "$1" "$large" "$small" "$2" "$3" "$note"
}

# The instructions of a whole run of a row's script of so many bytes, and how many lines the script has.
whole() {
  python3 "$here/scripts.py" . "$1" "$2"
  valgrind --tool=callgrind --callgrind-out-file=/dev/null "$program" replay --tables "$1.toml" < "$1.script" \
    2> told > /dev/null || { cat told; exit 1; }
  echo "$(awk '/Collected/ { print $NF }' told) $(wc -l < "$1.script")"
}

# What a block without records costs while 1,024 files are Ready for a line that is down.
waiting() {
  read -r few_cost few_lines <<< "$(whole waiting 280000)"
  read -r many_cost many_lines <<< "$(whole waiting 290000)"
  echo "a block beside 1,024 waiting files: $(((many_cost - few_cost) / (many_lines - few_lines))) instructions"
}

# What one event costs, of a row's script of so many bytes and of one that has some more.
event() {
  read -r few_cost few_lines <<< "$(whole "$1" "$2")"
  read -r many_cost many_lines <<< "$(whole "$1" "$3")"
  echo $(((many_cost - few_cost) / (many_lines - few_lines)))
}

# What an event costs beside files that wait for a line that is down.
beside() {
  for what in block list hold; do
    printf '%-9s %12s %12s %12s\n' "$what" "$(event "$what-all" 420000 440000)" "$(event "$what-half" 420000 440000)" \
      "$(event "$what-left" 420000 440000)"
  done
}

# How long it takes to start with the largest tables, and how much memory is touched.
starting() {
  python3 "$here/scripts.py" . largest 0
  /usr/bin/time -f 'the largest tables: %e s, %M kB' "$program" replay --tables largest.toml < /dev/null
}

printf '%-9s %8s %8s %8s %8s\n' row '1 MB' '250 kB' 'at most' plain
# A block of records on the other line; the reply of LIST; both; a block without records or ACK0; B0 to SYSIN 2.
row cards 26.9 17.9 '^a2 1002.\{1000\}'
row commands 419.9 279.9 d5d1c8f0f0f140
row mixed 44.6 29.7 d5d1c8f0f0f140 '^c0x2 1002.\{300\}'
row empty 70.8 47.2 '^a1 1070'
row ignored 14.4 9.6 '^a1 1002.*b0a800'
waiting
printf '%-9s %12s %12s %12s\n' 'one event' 'of 1,024' 'of 512' '512 left'
beside
echo "an event of 512 new routes: $(event routes 20000 60000) instructions"
for kind in job output; do
  echo "REROUTE of one $kind file of 3,000 cards: $(event "reroute-$kind" 520000 540000) instructions"
done
starting 2>&1
