#!/bin/bash
# Builds the benchmark of the spool in a new folder and prints its figures. See README.md.
set -e
here=$(cd "$(dirname "$0")" && pwd)
top=$(cd "$here/../.." && pwd)
work=$(mktemp -d)
trap 'rm -rf "$work"' EXIT
mkdir -p "$work/crates/spool_bench/src"
cp "$top/HANDLES" "$work"
for crate in njh_ebcdic njh_record njh_nmr njh_header njh_table njh_spool; do
  cp -r "$top/crates/$crate" "$work/crates"
  grep "^$crate:" "$top/crates.txt" >> "$work/crates.txt"
done
echo 'spool_bench: njh_record njh_table njh_spool anyhow' >> "$work/crates.txt"
for name in main calls looking removing; do
  cp "$here/$name.txt" "$work/crates/spool_bench/src/$name.rt"
done
cd "$work/crates/spool_bench"
rt run -- open 1 1 > "$work/build" || { cat "$work/build"; exit 1; }
bench=out/spool_bench

instructions() {
  valgrind --tool=callgrind --callgrind-out-file=/dev/null "$bench" "$@" 2>&1 | grep Collected | grep -o '[0-9]*$'
}

echo 'instructions for each byte of the records, files of 64 customers:'
for size in 249 84; do
  empty=$(instructions append 0 $size)
  for blocks in 1 100 10000; do
    appended=$(instructions append $blocks $size)
    read=$(instructions read $blocks $size)
    records=$("$bench" append $blocks $size | sed -n 1p)
    awk "BEGIN { n = $records * 64 * $size; printf \"records of %d bytes, %5d blocks: append %.3f, read on %.3f\\n\",
      $size, $blocks, ($appended - $empty) / n, ($read - $appended) / n }"
  done
done
echo 'nanoseconds to remove the first and the last of so many files of a customer:'
for files in 1 128 1024; do
  echo "$files: $("$bench" remove $files 100 | tr '\n' ' ')"
done
echo 'nanoseconds to look at one of so many files, all there, and every other one gone:'
for files in 2 128 1024; do
  echo "$files: $("$bench" look $files 1000 | tr '\n' ' ')"
done
echo 'opening 64 customers of 65,535 blocks:'
time "$bench" open 64 65535
