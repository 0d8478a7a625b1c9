#!/bin/sh
# Builds both codecs and times one against the other; README.md says how. It leaves the repository as it is.
set -e
cd "$(dirname "$0")"
kit=$(dirname "$(dirname "$(readlink -f "$(command -v rt)")")")
# The workspace is a temporary folder; or BENCH_DIR, which stays, so that a later run proves and builds what has changed alone.
if [ -n "$BENCH_DIR" ]; then
  mkdir -p "$BENCH_DIR"
  work=$(cd "$BENCH_DIR" && pwd)
  [ ! -d "$work/bench" ] || { echo 'bench: BENCH_DIR is a checkout' >&2; exit 1; }
else
  work=$(mktemp -d)
  trap 'rm -rf "$work"' EXIT
  trap 'exit 1' HUP INT TERM
fi

say() { echo "bench: $*" >&2; }

# The workspace, with the crate of the exports. Libraries that are built are taken along: of those rt builds what has changed.
uses='amqp_base amqp_types amqp_read amqp_write amqp_ser amqp_data amqp_de serde_amqp'
mkdir -p "$work/.git" "$work/crates"
for it in ../crates/*/; do
  it=$work/crates/$(basename "$it")
  rm -rf "$it/src" "$it/specs" "$it/proofs"
done
(cd ../crates && tar cf - --exclude='*/out' .) | (cd "$work/crates" && tar xf -)
for it in $uses; do
  [ -d "$work/crates/$it/out" ] || [ ! -d "../crates/$it/out/rlib" ] || { mkdir "$work/crates/$it/out" && cp -R "../crates/$it/out/rlib" "$work/crates/$it/out/"; }
done
cp ../HANDLES "$work/"
{
  cat ../crates.txt
  echo "amqp_bench staticlib: $uses"
} > "$work/crates.txt"
mkdir -p "$work/crates/amqp_bench/src"
cp amqp_bench.rt.txt "$work/crates/amqp_bench/src/lib.rt"

# Lowest first, as each is proved over those before it.
crates="$uses amqp_bench"
count=$(echo "$crates" | wc -w)
number=0
for it in $crates; do
  number=$((number + 1))
  begun=$(date +%s)
  say "$number of $count, $it: proving and building, where it isn't built"
  (cd "$work/crates/$it" && rt lib) < /dev/null > "$work/log" 2>&1 || { cat "$work/log" >&2; say "$it could not be built"; exit 1; }
  say "$number of $count, $it: done in $(($(date +%s) - begun)) s"
done

library=$work/crates/amqp_bench/out/libamqp_bench.a
driver() {
  rustc --edition 2024 -C opt-level=3 -C codegen-units=1 -C panic=abort -C target-cpu=x86-64-v2 "$@" main.rs
}
say 'building and running the drivers'
driver --cfg counting -C link-arg="$library" -o "$work/count"
driver -C link-arg="$library" -C link-arg="$kit/c/liblibc_c.a" -o "$work/bench"
"$work/count" > "$work/counts"
# Where valgrind is there, instructions too.
if command -v valgrind > /dev/null; then
  rm -rf "$work/callgrind"
  mkdir "$work/callgrind"
  valgrind --tool=callgrind --callgrind-out-file="$work/callgrind/out" "$work/bench" 2> "$work/log" ||
    { cat "$work/log" >&2; exit 1; }
  awk '
    sub(/^desc: Trigger: Client Request: /, "") { name = $0 }
    /^summary: / && name { total[name] = $2; name = "" }
    END {
      for (it in total) if (sub(/:ours 1$/, "", it))
        print it ": " total[it ":ours 1"] - total[it ":ours 0"] " " total[it ":plain 1"] - total[it ":plain 0"]
    }' "$work"/callgrind/out* >> "$work/counts"
fi
"$work/bench" "$work/counts" "$@"
