# For the scripts of rust/. XRUST: where cross/setup unpacked an x86-64 Rust, for a machine that is not x86-64.
here=$(cd "$(dirname "$0")" && pwd)
XRUST=${XRUST:-$here/unpacked}
native() { [ "$(uname -m)" = x86_64 ]; }
# the machine's own Rust, if it can compile for x86-64 (rustup target add x86_64-unknown-linux-gnu)
able() { d=$(rustc --print target-libdir --target x86_64-unknown-linux-gnu 2> /dev/null) && [ -d "$d" ]; }
ready() { native || [ -x "$XRUST/rustc" ] || able; }
tool() {
  name=$1; shift
  native && exec "$name" "$@"
  [ ! -x "$XRUST/$name" ] || exec "$XRUST/$name" "$@"
  able && exec "$name" "$@"
  echo "no Rust for x86-64 here: run $here/setup once (Debian), or rustup target add x86_64-unknown-linux-gnu" >&2
  exit 2
}
# the repository's commit, with +changes where its files differ from it
commit() {
  id=$(git -C "$here" rev-parse --verify --quiet HEAD 2> /dev/null) || id=unknown
  [ -z "$(git -C "$here/../.." status --porcelain -- crates crates.txt rust 2> /dev/null)" ] || id=$id+changes
  echo "$id"
}
