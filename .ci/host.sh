#!/bin/sh
# Builds the C host against the static library of the pulses (the crate `pulses_c`) and
# runs it, and makes the cases of messages again, which have to be the stored ones. Run
# from the repository's root. One line if all is well, else the whole log and status 1.
set -euf

log=target/host.log
mkdir -p target

failed() {
    cat "$log" >&2
    echo "host: failed at $1" >&2
    exit 1
}

# The program `indices`, made of one_index: its usage stands for a line that is not
# three numbers.
each_line() {
    number=0
    tr '\r' ' ' | while read -r fields || [ -n "$fields" ]; do
        number=$((number + 1))
        # shellcheck disable=SC2086 # the fields are to be parted here
        target/host/one_index $fields 2>/dev/null || printf '?\t%d\n' "$number"
    done
}

sh .ci/staticlib.sh >"$log" 2>&1 || failed "the static library"
make -s -C host check >>"$log" 2>&1 || failed "make check"
each_line <crates/indices/stdin >target/host/sample
cmp target/host/sample crates/indices/stdout >>"$log" 2>&1 || failed "the sample of indices"
make -s -C host cases >>"$log" 2>&1 || failed "make cases"
for name in stdin stdout; do
    for pair in reading:reading_cases sheet:sheet; do
        cmp "target/host/cases/${pair%:*}/$name" "crates/${pair#*:}/$name" >>"$log" 2>&1 ||
            failed "the stored $name of ${pair#*:}"
    done
done
grep '^compare:' "$log"
