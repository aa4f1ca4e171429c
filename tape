#!/bin/sh
# The bench tape: frames on standard input, a line each; answers on standard output. It builds what is needed first, and what the
# build says goes to standard error. Where standard input is a terminal, or with the word `sample`, it runs on samples/tape.txt,
# whose answers samples/README.md explains. Its status is 1 where answers could not be written.
set -eu
root=$(CDPATH='' cd -- "$(dirname -- "$0")" && pwd)
case ${1-} in
    '') if [ -t 0 ]; then input=$root/samples/tape.txt; else input=; fi ;;
    sample) input=$root/samples/tape.txt ;;
    *) echo "usage: $0 [sample] < frames" >&2; exit 2 ;;
esac
# shellcheck source=link/kit.sh
. "$root/link/kit.sh"
build_program bench_tape
if [ -n "$input" ]; then
    echo "$0: running on samples/tape.txt, which samples/README.md explains" >&2
    exec < "$input"
fi
run_told "$program"
