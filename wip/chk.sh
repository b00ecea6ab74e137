#!/bin/bash
# chk.sh CRATE SRCDIR [args]: check crate from another folder (SRCDIR has src specs proofs) with stage times
c=$1; dir=$2; shift 2; root=${ROOT:-/work/main}; T=$root/target; R=/opt/rattle/on/x86_64
deps=$(awk -v n="$c:" '$1==n{ $1=""; print }' $root/crates.txt)
W=(--crate-name $c)
if [ -f $dir/src/main.rt ]; then W+=($dir/src/main.rt); else W+=($dir/src/lib.rt); fi
W+=(--extern std=$R/rlib/std.rlib)
for d in $deps; do if [ -d $root/crates/$d ]; then W+=(--extern $d=$T/rlib/$d.rlib); else W+=(--extern $d=$R/rlib/$d.rlib); fi; done
exec /usr/bin/time -f "time %e %U %S %M" $R/bin/rattle check "${W[@]}" -L dependency=$T/rlib -L dependency=$R/rlib --antt-project /opt/rattle/logic/antt-project.json --logic-built $R/logic-built "$@"
