# For scripts that need a file which rt writes; $top is the repository's folder.

# fresh FILE: it is there, and no source is newer. What rt keeps in a crate's out/ is no source.
fresh() {
  [ -f "$1" ] && [ -z "$(find "$top/crates" "$top/crates.txt" -name out -prune -o -type f -newer "$1" -print | head -n 1)" ]
}

# prove FILE CRATE COMMAND [NAME]: `rt COMMAND` in the crate's folder, which writes NAME there in out/ (without it: FILE's own name); FILE is
# a copy. Standard error gets rt's own lines and one for each crate, and the time every 20 s; target/rt.log gets all. FILE gets the time of
# the start, so that a source that is edited meanwhile is newer.
prove() {
  file=$1 crate=$2 command=$3 made=${4:-$(basename "$1")}
  command -v rt > /dev/null || {
    echo "no rt here, and $file is missing or older than crates/: install the Rattle kit" >&2
    return 2
  }
  mkdir -p "$top/target" "$(dirname "$file")" && start=$(mktemp "$top/target/start.XXXXXX") || return 2
  echo "rt $command in crates/$crate: proves the code. From nothing it takes some minutes and up to 4 GB of memory; what it keeps goes" \
    "into the crates' out/; it fetches nothing" >&2
  tick & ticker=$!
  trap 'kill $ticker; rm -f "$start"; exit 130' INT TERM
  { (cd "$top/crates/$crate" && rt "$command" < /dev/null); echo "status $?"; } 2>&1 | tee "$top/target/rt.log" | while IFS= read -r line; do
    case $line in "rt: "* | "crate "*) echo "$line" >&2 ;; esac
  done
  kill $ticker
  trap - INT TERM
  status=2
  if [ "$(tail -n 1 "$top/target/rt.log")" = "status 0" ]; then
    cp -f "$top/crates/$crate/out/$made" "$file" && touch -r "$start" "$file" && status=0
  else
    echo "rt $command in crates/$crate failed: see $top/target/rt.log" >&2
  fi
  rm -f "$start"
  return $status
}

tick() {
  seconds=0
  while sleep 20 > /dev/null 2>&1 && kill -0 $$ 2> /dev/null; do
    seconds=$((seconds + 20))
    echo "    $seconds s" >&2
  done
}
