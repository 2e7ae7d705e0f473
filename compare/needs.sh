# What both commands need, each with a word on what is missing. Read by them, not run.

# The folder with the Rust, which the build takes from VOLANKIZO_RUST.
need_rust() {
  [ -d "$1" ] || die "$1: no such folder; it must hold the Rust that is ported"
  for file in kernel.rs counterfactual.rs; do
    [ -f "$1/$file" ] || die "$1/$file is missing"
  done
  VOLANKIZO_RUST=$(cd "$1" && pwd)
  export VOLANKIZO_RUST
}

need_tools() {
  for tool in "$@"; do
    command -v "$tool" >/dev/null || die "$tool is not on the path"
  done
}
