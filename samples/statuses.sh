#!/usr/bin/env bash
# Runs the program on inputs that end in each of its statuses, and compares the exit code and the line on standard error.
# Usage: samples/statuses.sh [PROGRAM]. Ends with 0 where all are as they should be, else with 1.
set -u
pmd=${1:-crates/pmd/out/pmd}
if [ ! -x "$pmd" ]; then
  echo "no program at $pmd: run 'rt ci', or (cd crates/pmd && rt run -- tally < stdin)"
  exit 0
fi
failed=0
folder=$(mktemp -d)
trap 'rm -rf "$folder"' EXIT

# want EXIT TEXT: what the last run should have ended with
want() {
  local text
  text=$(cat "$folder/err")
  if [ "$code" = "$1" ] && [ "$text" = "$2" ]; then
    echo "ok      $1 ${2:-no text}"
  else
    echo "WRONG   exit $code, '$text' where $1, '$2' should be"
    failed=1
  fi
}

cell='ManagedElement=ME1,GNBCUCPFunction=1,NRCellCU=7 RRC.ConnEstabAtt.mo-Data'
printf 'end\n60 %s 1\n' "$cell" > "$folder/good"
printf 'end\n60 %s one\n' "$cell" > "$folder/form"

"$pmd" tally < "$folder/good" > "$folder/out" 2> "$folder/err"; code=$?
want 0 ""
"$pmd" > "$folder/out" 2> "$folder/err"; code=$?
want 1 "pmd: status 1 Usage"
"$pmd" $'\xff' > "$folder/out" 2> "$folder/err"; code=$?
want 1 "pmd: status 1 Usage"
"$pmd" tally < "$folder/form" > "$folder/out" 2> "$folder/err"; code=$?
want 2 "pmd: status 2 BadInput at 2 E1"
"$pmd" tally < "$folder" > "$folder/out" 2> "$folder/err"; code=$?
want 3 "pmd: status 3 ReadFault"
"$pmd" tally < "$folder/good" > /dev/full 2> "$folder/err"; code=$?
want 4 "pmd: status 4 WriteFault"
"$pmd" tally < /dev/null > "$folder/out" 2> "$folder/err"; code=$?
want 11 "pmd: status 11 BadInventory at 1 I2"
exit $failed
