# What the commands share: what is needed, the static library, and the driver. Read by them, not run. After it, `program` is the driver.
here=$(cd "$(dirname "${BASH_SOURCE[0]}")" && pwd)
root=$(dirname "$here")
source "$root/compare/needs.sh"

# prepare RUST_FOLDER TOOL..: all but the driver.
prepare() {
  [ "$(uname -sm)" = "Linux x86_64" ] || die "the static library is for x86-64 Linux; under an emulator a time says nothing of it"
  need_rust "$1"
  need_tools rustc cargo rt "${@:2}"
  "$root/tools/build" volankizo >/dev/null || die "tools/build volankizo failed"
  export VOLANKIZO_ARCHIVE=$root/target/staticlib/libvolankizo.a
  [ -f "$VOLANKIZO_ARCHIVE" ] || die "tools/build volankizo wrote no $VOLANKIZO_ARCHIVE"
  export CARGO_TARGET_DIR=$root/target/bench
  program=$CARGO_TARGET_DIR/release/bench
}

# driver BYTES: links it with so many bytes before its code.
driver() {
  VOLANKIZO_PAD=$1 cargo build --manifest-path "$here/Cargo.toml" --offline --locked --release -j1 --quiet || die "the driver was not built"
}

# under_callgrind NAME WORD..: has the instructions of each run that the driver makes by these words counted. `lines` and `parts` are then what it
# printed and what was counted.
under_callgrind() {
  lines=$CARGO_TARGET_DIR/$1.lines
  parts=$CARGO_TARGET_DIR/$1.parts
  rm -f "$parts"
  # Without ERMS the C library copies by vectors alone: a `rep movsb` would count as an instruction for every byte.
  GLIBC_TUNABLES=glibc.cpu.hwcaps=-ERMS valgrind --quiet --tool=callgrind --toggle-collect=bench_counted --dump-after=bench_counted --combine-dumps=yes \
    --callgrind-out-file="$parts" "$program" "${@:2}" >"$lines" || die "the driver stopped under valgrind"
}

# counted CALL: of each row, for `bench table` and `bench hold`.
counted() {
  under_callgrind counted once "$1"
}
