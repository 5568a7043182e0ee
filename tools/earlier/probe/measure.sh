#!/bin/bash
# measure.sh ROOT NAME [KEYS..]: instructions of ROOT's unproved crates on the benchmark's inputs; what it makes lies in $PROBE/NAME
here=$(dirname "$(readlink -f "$0")"); root=$(readlink -f "$1"); out=$PROBE/$2; shift 2
mkdir -p "$out"; python3 "$here/mkprobe.py" "$root" "$out/libneukolja.a" || exit 1
cd "$root/differential"; NEUKOLJA_ARCHIVE=$out/libneukolja.a cargo build --offline --release -p bench 2>&1 | grep -E 'error|warning: unused' ; cp target/release/bench "$out/bench"
export GLIBC_TUNABLES=glibc.cpu.x86_rep_stosb_threshold=1000000000
for k in ${@:-0 1 2 3 4 5 6 7 8 9}; do f=neukolja_expand; [ $k -ge 3 ] && [ $k -le 6 ] && f=neukolja_registry; echo $k $(valgrind --tool=callgrind --callgrind-out-file=$out/cg.$k --dump-instr=yes --toggle-collect=$f $out/bench once $k archive 2>&1 | grep Collected); done
