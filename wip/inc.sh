#!/bin/bash
# inc.sh CRATE [N]: incremental check of /work/new's crate over /work/main's rlibs, and the times of its modules
c=$1; D=/dev/shm/inc/$c; mkdir -p $D; stamp=$(mktemp); 
bash /work/bin/chk.sh $c /work/new/crates/$c --incremental $D > /work/inc-$c.log 2>&1
grep -E 'error|not-proved|no verdict' /work/inc-$c.log | cut -c1-600 | head -${3:-6}; tail -2 /work/inc-$c.log
find $D -type f -newer $stamp -printf '%T@ %P\n' | sort -n > /work/inc-$c.files
python3 - /work/inc-$c.files $stamp ${2:-8} <<'P'
import sys,re,os
rows=[l.rstrip('\n').split(' ',1) for l in open(sys.argv[1])]
rows=[[str(os.path.getmtime(sys.argv[2])),'start']]+rows
out={}
for (a,_),(b,n) in zip(rows,rows[1:]):
    n=re.sub(r'^[^/]*/','',n); n=re.sub(r'records/|\.decls|\.oantt|Rattle·|·proofs\.proofs','',n)
    out[n]=out.get(n,0)+float(b)-float(a)
for n,t in sorted(out.items(), key=lambda x:-x[1])[:int(sys.argv[3])]: print(f'{t:.2f} {n}')
P
rm -f $stamp
