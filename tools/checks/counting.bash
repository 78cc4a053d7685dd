# What the checks share, sourced by each: where the repository is, a scratch folder, and how many comparisons passed and failed.
cd "$(dirname "${BASH_SOURCE[0]}")/../.." || exit 1
scratch=$(mktemp -d) || exit 1
trap 'rm -rf "$scratch"' EXIT
passed=0
failed=0

report() { # NAME OK
  if [ "$2" = 1 ]; then
    passed=$((passed + 1))
  else
    failed=$((failed + 1))
    echo "differs: $1"
  fi
}

finish() { # NAME: says what passed, and fails if something differs
  echo "$1: $passed passed, $failed failed"
  [ "$failed" = 0 ]
}
