#!/bin/bash
# prof.sh CRATE [ROOT] [N]: time of each module of a crate's check
c=$1; root=${2:-/work/main}; T=$root/target; R=/opt/rattle/on/x86_64
deps=$(awk -v n="$c:" '$1==n{ $1=""; print }' $root/crates.txt)
W=(--crate-name $c)
if [ -f $root/crates/$c/src/main.rt ]; then W+=($root/crates/$c/src/main.rt); else W+=($root/crates/$c/src/lib.rt); fi
W+=(--extern std=$R/rlib/std.rlib)
for d in $deps; do if [ -d $root/crates/$d ]; then W+=(--extern $d=$T/rlib/$d.rlib); else W+=(--extern $d=$R/rlib/$d.rlib); fi; done
D=/dev/shm/prof/$c; rm -rf $D; mkdir -p $D /work/prof
/usr/bin/time -f "%e %U %S %M" -o /work/prof/$c.time $R/bin/rattle check "${W[@]}" -L dependency=$T/rlib -L dependency=$R/rlib --antt-project /opt/rattle/logic/antt-project.json --logic-built $R/logic-built --incremental $D > /work/prof/$c.out 2>&1
find $D -type f -printf '%T@ %P\n' | sort -n > /work/prof/$c.files
python3 - /work/prof/$c.files > /work/prof/$c.mods <<'P'
import sys,re
rows=[l.rstrip('\n').split(' ',1) for l in open(sys.argv[1])]
out={}
for (a,_),(b,n) in zip(rows,rows[1:]):
    n=re.sub(r'^[^/]*/','',n); n=re.sub(r'records/|\.decls|\.oantt|Rattle·|·proofs\.proofs','',n)
    out[n]=out.get(n,0)+float(b)-float(a)
for n,t in sorted(out.items(), key=lambda x:-x[1]): print(f'{t:.2f} {n}')
P
echo "== $c: $(cat /work/prof/$c.time)"; head -${3:-12} /work/prof/$c.mods; rm -rf $D
