#!/bin/sh
# Runs the commands of the bindings' READMEs and compares what they print; ends with 1 at the first that is wrong. First
# it proves and builds the archive and hitlist, where they have changed. It needs rt, a C and a C++ compiler, and cargo.
cd "$(dirname "$0")/.." || exit 1
library=target/staticlib/libtolkjirp.a
hitlist=crates/hitlist/out/hitlist
out=$(mktemp -d) || exit 1
trap 'rm -rf "$out"' EXIT

fail() {
    echo "wrong: $1"
    exit 1
}

# Runs a command, whose status has to be the one named first.
ends() {
    expected=$1
    shift
    "$@" >"$out/printed" 2>"$out/said"
    status=$?
    [ $status -eq "$expected" ] || { cat "$out/printed" "$out/said"; fail "$* ends with $status, not $expected"; }
}

# ---- The archive and hitlist
ends 0 bindings/archive.sh
ends 0 sh -c 'cd crates/hitlist && rt run <stdin'
cmp -s crates/hitlist/stdout "$out/printed" || fail "hitlist on its stored text"
for needed in "$hitlist" "$library"; do
    [ -e "$needed" ] || fail "$needed is missing"
done
echo "The archive and hitlist: built"

# ---- C and C++
ends 0 cc -std=c99 -O2 -Wall -Wextra -Werror -pedantic -o target/example bindings/c/example.c "$library"
ends 0 c++ -std=c++11 -O2 -Wall -Wextra -Werror -pedantic -o "$out/empty" bindings/c/empty.cpp "$library"
ends 0 "$out/empty"
ends 0 target/example
for plate in plates/*.nc; do
    "$hitlist" <"$plate" >"$out/listing"
    ends 0 target/example "$plate"
    cmp -s "$out/listing" "$out/printed" || fail "$plate by name"
    target/example - <"$plate" | cmp -s "$out/listing" - || fail "$plate from standard input"
done
printf 'G92X600.Y600.\nM0\nM12\nX1.Y2.T3\nM01\nM08\nG50\n' >"$out/stops.nc"
printf 'ENTRIES 3\n1 0 0 0 S\n2 100 200 3 N\n3 0 0 0 O\n3 1 2 2\n' >"$out/stops.list"
ends 0 target/example "$out/stops.nc"
cmp -s "$out/stops.list" "$out/printed" || fail "stops"
printf 'G92X600.Y600.\nG70X1.Y2.T7\nX3.T99\nM0\nX4.T1\nX5.T99\nG50\n' >"$out/tools.nc"
printf 'ENTRIES 4\n1 300 200 99 P\n2 0 0 0 S\n3 400 200 1 P\n4 500 200 99 P\n1 1 3 3\n99 2 1 4\n' >"$out/tools.list"
ends 0 target/example "$out/tools.nc"
cmp -s "$out/tools.list" "$out/printed" || fail "tools"
printf 'G92X600.Y600.\nG93X50.Y60.\nU60\nX1.Y2.T3\nM0\nV60\nG73X9.Y8.Q2W60\nG73Q3W60\nG50\n' >"$out/mirrors.nc"
printf 'ENTRIES 4\n1 5800 6200 3 P\n2 0 0 0 S\n3 5100 6600 3 P\n4 0 0 0 S\n3 2 1 3\n' >"$out/mirrors.list"
ends 0 target/example "$out/mirrors.nc"
cmp -s "$out/mirrors.list" "$out/printed" || fail "mirrors"
printf 'G92X600.Y600.\nX-11.T1\nG50\n' >"$out/refused.nc"
ends 1 target/example "$out/refused.nc"
[ "$(cat "$out/printed")" = 'REFUSED 16 LINE 2' ] || fail "a refusal"
printf 'G92X600.Y600.\nG72X1.Y1.\nG66I3.J0P2.T1\nG66I1.J0P1.\nG50\n' >"$out/unfit.nc"
ends 1 target/example "$out/unfit.nc"
[ "$(cat "$out/printed")" = 'REFUSED 18 LINE 4' ] && grep -q 'a G66' "$out/said" || fail "an edge that does not fit"
printf 'G92X600Y600\nX100Y100T2\nG50\n' >"$out/millimetres.nc"
ends 0 target/example -0
ends 0 target/example -0 "$out/millimetres.nc"
grep -q '^1 10000 10000 2 P$' "$out/printed" || fail "a text in whole millimetres"
target/example -0 - <"$out/millimetres.nc" | cmp -s "$out/printed" - || fail "setting 0 from standard input"
ends 1 target/example "$out/millimetres.nc"
grep -q '^REFUSED 8 LINE 1$' "$out/printed" || fail "a text in whole millimetres at setting 1"
for words in no-such-file plates --help -x -1; do
    ends 2 target/example "$words"
    [ -s "$out/said" ] && [ ! -s "$out/printed" ] || fail "target/example $words says nothing, or prints"
done
ends 2 target/example one two
ends 2 target/example -0 one two
ends 2 target/example -0 -0
ends 2 sh -c 'target/example >/dev/full'
ends 2 sh -c 'target/example - <&-'
echo "C and C++: as documented"

# ---- Rust
cd bindings/rust || exit 1
ends 0 cargo test --offline
ends 0 cargo run --offline --example plate
ends 0 cargo run --offline --example plate -- ../../plates/tip-rack.nc
ends 0 cargo run --offline --example plate -- -0 ../../plates/tip-rack.nc
ends 0 cargo run --offline --example plate -- -0 "$out/millimetres.nc"
ends 1 cargo run --offline --example plate -- "$out/millimetres.nc"
ends 1 cargo run --offline --example plate -- "$out/refused.nc"
ends 1 cargo run --offline --example plate -- no-such-file
for text in stops tools mirrors; do
    ends 0 cargo run --offline --example plate -- "$out/$text.nc"
    cmp -s "$out/$text.list" "$out/printed" || fail "$text by plate"
    ends 0 cargo run --offline -p plain --example entries -- "$out/$text.nc"
    cmp -s "$out/$text.list" "$out/printed" || fail "$text by the plain expander"
done
ends 0 cargo run --offline -p plain --example entries -- ../../plates/tip-rack.nc
ends 0 cargo run --offline -p plain --example entries -- -0 "$out/millimetres.nc"
ends 1 cargo run --offline -p plain --example entries -- "$out/millimetres.nc"
ends 2 cargo run --offline -p plain --example entries
ends 0 cargo run --offline --release --bin compare -- 10000 1
ends 2 cargo run --offline --release --bin compare -- 0
ends 2 cargo run --offline --release --bin compare -- 2 18446744073709551615
ends 0 cargo run --offline --release --bin vectors
ends 0 cargo run --offline --release --bin bench -- 1 "small plate"
ends 2 cargo run --offline --release --bin bench -- 0
echo "Rust: as documented"
