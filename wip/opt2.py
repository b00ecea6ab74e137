import sys,os,random
J=int(sys.argv[1]); out=sys.argv[2] if len(sys.argv)>2 else None
sys.argv=['x','/work/main','/work/times.txt']
exec(open('/work/bin/sim2.py').read().split('for J in Js:')[0])
from functools import lru_cache
ne={}
for n,_ in edits: ne[n]=ne.get(n,0)+1
@lru_cache(None)
def bt(ts): return batch(ts)
def cost(ord,J):
    w=0; at=None; cur=[]
    for n in ord:
        if lv[n]!=at or len(cur)>=J:
            if cur: w+=bt(tuple(sorted(cur)))
            cur=[]
        at=lv[n]; cur.append(t[n])
    w+=bt(tuple(sorted(cur)))
    es=[t[n] for n in ord for _ in range(ne.get(n,0))]
    e=sum(bt(tuple(sorted(es[i:i+J]))) for i in range(0,len(es),J))
    return w,e
random.seed(1)
levels=[[i for i,n in enumerate(order) if lv[n]==L] for L in range(max(lv.values())+1)]
def sorted_order():
    return [n for L in range(max(lv.values())+1) for n in sorted([m for m in order if lv[m]==L],key=lambda n:-t[n])]
c0=cost(order,J); c1=cost(sorted_order(),J)
print(J,'listed',[round(x/60,2) for x in c0],round(sum(c0)/60,2),'sorted',[round(x/60,2) for x in c1],round(sum(c1)/60,2))
best=None
for start in (list(order),sorted_order()):
    cur=start; cc=sum(cost(cur,J))
    for it in range(8000):
        c=list(cur); L=random.choice([l for l in levels if len(l)>1]); i,j=random.sample(L,2)
        if random.random()<.5: c[i],c[j]=c[j],c[i]
        else: x=c.pop(i); c.insert(j,x)
        k=sum(cost(c,J))
        if k<=cc: cur,cc=c,k
    if best is None or cc<best[0]: best=(cc,cur)
w,e=cost(best[1],J); print(J,'best',round(w/60,2),round(e/60,2),round(best[0]/60,2))
if out: open(out,'w').write('\n'.join(f'{lv[n]} {n} {t[n]:.0f} {ne.get(n,0)}' for n in best[1])+'\n')
