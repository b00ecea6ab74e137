import sys,os,re
sys.path.insert(0,'/work')
root=sys.argv[1]; times=sys.argv[2]; Js=[int(x) for x in sys.argv[3:]] or [2,3,4,5,6,8,12]
def load(crates):
    deps={}
    for l in open(crates):
        l=l.split('#')[0]
        if ':' in l:
            n,d=l.split(':',1); deps[n.strip()]=d.split()
    return deps
deps=load(root+'/crates.txt')
# visit order as in rt
lv={};order=[]
def visit(n):
    if n in lv: return
    for d in deps[n]:
        if d in deps: visit(d)
    lv[n]=1+max([lv[d] for d in deps[n] if d in deps],default=-1); order.append(n)
for n in deps: visit(n)
order.sort(key=lambda n:lv[n])
t={}
for l in open(times):
    p=l.split(); t[p[0]]=float(p[2])+float(p[3])
est=dict(block_render=56,scene_blocks=47,scene_render=66,chunk_render=88,room_desk=20,render_files=37,c_interface=27,noninterference=40)
miss=[n for n in order if n not in t]
for n in miss: t[n]=est.get(n,10)
print('missing',len(miss),miss)
def f(n):
    pts=[(1,0.97),(2,1.0),(3,1.05),(4,1.06),(6,1.13),(8,1.2),(12,1.3),(99,1.3)]
    for (a,x),(b,y) in zip(pts,pts[1:]):
        if a<=n<=b: return x+(y-x)*(n-a)/(b-a)
def batch(ts):
    ts=sorted(ts);w=0;done=0;n=len(ts)
    for i,x in enumerate(ts):
        left=n-i; rate=min(1,2/left)/f(left)
        w+=(x-done)/rate; done=x
    return w
edits=[]
for n in order:
    d=f'{root}/crates/{n}/must-fail'
    k=len([x for x in os.listdir(d) if x.endswith('.edit')]) if os.path.isdir(d) else 0
    edits+=[(n,t[n])]*k
for J in Js:
    proof=0;rows=[]
    for L in range(max(lv.values())+1):
        ns=[n for n in order if lv[n]==L]; w=sum(batch([t[n] for n in ns[i:i+J]]) for i in range(0,len(ns),J)); proof+=w
        rows.append((L,w,sum(t[n] for n in ns),' '.join(f'{n}:{t[n]:.0f}' for n in ns)))
    e=sum(batch([x for _,x in edits[i:i+J]]) for i in range(0,len(edits),J))
    print(f'J {J}: proofs {proof/60:.1f} min (cpu {sum(t[n] for n in order)/60:.1f}), edits {e/60:.1f} min (cpu {sum(x for _,x in edits)/60:.1f}), sum {(proof+e)/60:.1f}')
    if os.environ.get('ROWS'):
        for r in rows: print(f'level {r[0]}: wall {r[1]:.0f} cpu/2 {r[2]/2:.0f}  {r[3]}')
per={}
for n,x in edits: per.setdefault(n,[0,0]); per[n][0]+=1; per[n][1]+=x
print('edits:',' '.join(f'{n}:{k}x{x/k:.0f}={x:.0f}' for n,(k,x) in sorted(per.items(),key=lambda z:-z[1][1])))
