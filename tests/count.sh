# Sourced: parts of the tests and their counts.
passed=0
failed=0

# Runs a part, shows what it says, and adds the counts of its last line, `N passed, F failed`. A part that fails, or has no counts, is a failure.
part() {
  local log status counts
  log=$(mktemp)
  "$@" 2>&1 | tee "$log"
  status=${PIPESTATUS[0]}
  counts=$(tail -n 1 "$log" | sed -nE 's/.*\b([0-9]+) passed, ([0-9]+) failed$/\1 \2/p')
  rm -f "$log"
  if [ -z "$counts" ]; then
    failed=$((failed + 1))
    return
  fi
  passed=$((passed + ${counts% *}))
  failed=$((failed + ${counts#* }))
  if [ "$status" -ne 0 ] && [ "${counts#* }" -eq 0 ]; then
    failed=$((failed + 1))
  fi
}

# The sums. The status is 0 only if something passed and nothing failed.
total() {
  echo "$passed passed, $failed failed"
  [ "$passed" -gt 0 ] && [ "$failed" -eq 0 ]
}
