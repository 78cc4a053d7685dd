#!/usr/bin/env bash
# Where dist/ says that it is of this checkout's sources, its programs are those whose digests stand beside them, and answer an
# example as it is stored. A dist/ of other sources is never run, and fails nothing here.
set -u
source "$(dirname "$0")/counting.bash"
if [ "$(cat dist/sources.sha256 2>/dev/null)" = "$(tools/dist --digest)" ]; then
  tools/dist --check && report "the digests of dist/" 1 || report "the digests of dist/" 0
  dist/whyline run examples/first.java >"$scratch/out" 2>&1
  cmp -s "$scratch/out" examples/first.out && report "an example by dist/whyline" 1 || report "an example by dist/whyline" 0
  (cd examples && ../dist/whylens explain first.java) >"$scratch/out" 2>&1
  echo 'first.java: a program that whyline runs' | cmp -s - "$scratch/out" && report "an example by dist/whylens" 1 || report "an example by dist/whylens" 0
else
  echo "dist/ is of other sources: tools/dist renews it"
fi
finish dist
