#!/bin/bash
# bld.sh CRATE: builds /work/new's crate into /work/trial/rlib, which starts as a copy of main's
c=$1; root=/work/new; T=/work/trial; R=/opt/rattle/on/x86_64; export TMPDIR=/dev/shm
deps=$(awk -v n="$c:" '$1==n{ $1=""; print }' $root/crates.txt)
W=(--crate-name $c $root/crates/$c/src/lib.rt --extern std=$R/rlib/std.rlib)
for d in $deps; do if [ -d $root/crates/$d ]; then [ -d $T/rlib/$d.rlib ] && W+=(--extern $d=$T/rlib/$d.rlib); else W+=(--extern $d=$R/rlib/$d.rlib); fi; done
/usr/bin/time -f "time %e %U %S %M" $R/bin/rattle build "${W[@]}" -L dependency=$T/rlib -L dependency=$R/rlib --antt-project /opt/rattle/logic/antt-project.json --logic-built $R/logic-built -o $T/rlib/$c.rlib > $T/$c.log 2>&1; rc=$?
echo "== $c rc $rc $(tail -1 $T/$c.log)"; grep -E ' error|error:' $T/$c.log | cut -c1-700 | head -${2:-6}; exit $rc
