#!/usr/bin/env bash
# Runs the producer on samples/run.requests in an empty folder, and compares its replies with samples/run.replies. Then it looks at the
# file of the store, runs again over it, and over a file that another process holds.
# Usage: samples/run.sh [PROGRAM]. Ends with 0 where all is as it should be, else with 1.
set -u
here=$(cd "$(dirname "$0")" && pwd)
pmd=$(realpath "${1:-$here/../crates/pmd/out/pmd}")
if [ ! -x "$pmd" ]; then
  echo "no program at $pmd: run 'rt ci', or (cd crates/pmd && rt run -- tally < stdin)"
  exit 0
fi
failed=0
folder=$(mktemp -d)
trap 'rm -rf "$folder"' EXIT
cd "$folder" || exit 1

# same WHAT IS WANTED
same() {
  if [ "$2" = "$3" ]; then
    echo "ok      $1"
  else
    echo "WRONG   $1: '$2' where '$3' should be"
    failed=1
  fi
}

"$pmd" run --boot 1699999100 < "$here/run.requests" > replies 2> err; code=$?
same "the exit code" "$code" 0
same "standard error" "$(cat err)" ""
cmp -s replies "$here/run.replies"; same "the replies" $? 0
same "the mode of the store" "$(stat -c %a pmd-first.journal)" 600
same "the files" "$(ls)" "$(printf 'err\npmd-first.journal\nreplies')"

"$pmd" run --boot 1699999300 < "$here/run.requests" > replies 2> err; code=$?
same "a store that has items" "$code $(cat err)" "6 pmd: status 6 Garbled at 8"

rm pmd-first.journal
flock -x pmd-first.journal "$pmd" run --boot=1699999100 < "$here/run.requests" > replies 2> err; code=$?
same "a store that another process holds" "$code $(head -1 err)" "5 pmd: status 5 StoreFault"

rm -f pmd-first.journal
"$pmd" run --boot 1699999100 < /dev/null > replies 2> err; code=$?
same "no inventory" "$code $(cat err)" "11 pmd: status 11 BadInventory at 1 I2"
same "no file is made" "$(ls)" "$(printf 'err\nreplies')"
exit $failed
