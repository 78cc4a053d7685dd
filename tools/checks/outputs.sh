#!/usr/bin/env bash
# Records one program onto files, pipes and devices. A new file, an empty one and an older trace become its trace, and a pipe's reader
# gets it; a file that holds something else is a fault, and stays as it is. WHYLINE names another program than that of tools/program.
set -u
source "$(dirname "$0")/counting.bash"
program=$(readlink -f "${WHYLINE:-$(tools/program)}")
java=$scratch/first.java
cp examples/first.java "$java"
printf '5\n-- finished\n-- recorded 10 events\n' >"$scratch/recorded"
printf 'fault: recorder\n' >"$scratch/fault"

expect() { # NAME STATUS FILE COMMAND..: the command writes what the file holds, and has this status
  local name=$1 status=$2 wanted=$3 same=1
  shift 3
  timeout 60 "$@" >"$scratch/out" 2>/dev/null
  [ $? = "$status" ] || same=0
  cmp -s "$scratch/out" "$wanted" || same=0
  report "$name" "$same"
}

expect_same() { # NAME FILE FILE
  cmp -s "$2" "$3" && report "$1" 1 || report "$1" 0
}

expect_trace() { # NAME FILE: recorded onto it, the file is the trace
  expect "$1" 0 "$scratch/recorded" "$program" record "$java" -o "$2"
  expect_same "$1: the trace" "$2" "$scratch/trace"
}

expect_spared() { # NAME FILE WORD..: recorded onto it, the file stays as it is
  local name=$1 file=$2
  shift 2
  cp "$file" "$scratch/before"
  expect "$name" 7 "$scratch/fault" "$program" record "$java" -o "$file" "$@"
  expect_same "$name: as it was" "$file" "$scratch/before"
}

expect "a new file" 0 "$scratch/recorded" "$program" record "$java" -o "$scratch/trace"
"$program" audit "$scratch/trace" >/dev/null 2>&1 && report "a new file: the trace" 1 || report "a new file: the trace" 0

: >"$scratch/empty"
expect_trace "an empty file" "$scratch/empty"
cp "$scratch/trace" "$scratch/older"
expect_trace "an older trace" "$scratch/older"
(cat "$scratch/trace" && head -c 100000 /dev/zero) >"$scratch/longer"
expect_trace "a longer file that begins as a trace" "$scratch/longer"
for version in 1 2; do
  printf 'WHYTRAC%s' "$version" >"$scratch/magic"
  expect_trace "a trace of version $version that was cut" "$scratch/magic"
done
ln -s "$scratch/made" "$scratch/link"
expect_trace "a link to a file that isn't there" "$scratch/link"

expect_spared "the source" "$java"
printf 'abc' >"$scratch/input"
expect_spared "the input" "$scratch/input" -i "$scratch/input"
printf 'WHYTRAC' >"$scratch/short"
expect_spared "a file that is shorter than the magic" "$scratch/short"
head -c 1048576 /dev/urandom >"$scratch/picture"
expect_spared "a picture" "$scratch/picture"

expect "what keeps nothing" 0 "$scratch/recorded" "$program" record "$java" -o /dev/null
expect "what is full" 7 "$scratch/fault" "$program" record "$java" -o /dev/full
expect "a folder" 7 "$scratch/fault" "$program" record "$java" -o "$scratch"

mkfifo "$scratch/pipe"
timeout 60 cat "$scratch/pipe" >"$scratch/read" &
expect "a pipe with a name" 0 "$scratch/recorded" "$program" record "$java" -o "$scratch/pipe"
wait
expect_same "a pipe with a name: the trace" "$scratch/read" "$scratch/trace"

timeout 60 "$program" record "$java" -o /dev/stdout 2>/dev/null | cat >"$scratch/both"
[ "${PIPESTATUS[0]}" = 0 ] && report "the output's pipe" 1 || report "the output's pipe" 0
cat "$scratch/trace" "$scratch/recorded" | cmp -s - "$scratch/both" && report "the output's pipe: the trace" 1 || report "the output's pipe: the trace" 0

finish outputs
