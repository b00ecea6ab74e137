#!/usr/bin/env python3
"""drive.py ROOT [WORKERS]: proves every crate greedily, writes rlibs and stamps, and each check's times to ROOT-times.txt"""
import sys,os,re,subprocess,time,hashlib,threading,queue
root=os.path.abspath(sys.argv[1]); N=int(sys.argv[2]) if len(sys.argv)>2 else 2
own='/opt/rattle/on/x86_64'; T=root+'/target'
for d in ('rlib','stamp','log','obj','bin'): os.makedirs(f'{T}/{d}',exist_ok=True)
deps={}
raw={}
for l in open(root+'/crates.txt'):
    l=l.rstrip('\n'); l=re.sub('#.*','',l)
    if ':' in l:
        n,d=l.split(':',1); n=n.strip(); raw[n]=d; deps[n]=d.split()
def stamp(n):
    t=open('/opt/rattle/KIT-ID').read()+'machine x86_64\n'
    r=subprocess.run("find src specs proofs stdin stdout args data -type f -exec sha256sum {} + 2>/dev/null | sort",shell=True,cwd=f'{root}/crates/{n}',capture_output=True,text=True).stdout
    t+=r+'deps: '+raw[n]+'\n'
    for d in deps[n]:
        t+= open(f'{T}/stamp/{d}').read() if d in deps else f'kit {d}\n'
    return hashlib.sha256(t.encode()).hexdigest()
lock=threading.Lock(); done=set(); started=set(); out=open(root.rstrip('/')+'-times.txt','w')
lv={}
def level(n):
    if n not in lv: lv[n]=1+max([level(d) for d in deps[n] if d in deps],default=-1)
    return lv[n]
users={n:[m for m in deps if n in deps[m]] for n in deps}
h={}
def height(n):
    if n not in h: h[n]=1+max([height(m) for m in users[n]],default=0)
    return h[n]
cond=threading.Condition()
def one(n):
    dir=f'{root}/crates/{n}'; main=os.path.exists(dir+'/src/main.rt')
    W=['--crate-name',n,dir+('/src/main.rt' if main else '/src/lib.rt'),'--extern',f'std={own}/rlib/std.rlib']
    for d in deps[n]: W+=['--extern',f'{d}={T if d in deps else own}/rlib/{d}.rlib']
    W+=['-L',f'dependency={T}/rlib','-L',f'dependency={own}/rlib','--antt-project','/opt/rattle/logic/antt-project.json','--logic-built',f'{own}/logic-built']
    if main: W+=['--toolchain',f'{own}/toolchain','-o',f'{T}/obj/{n}.o']
    else: W+=['-o',f'{T}/rlib/{n}.rlib']
    f=open(f'{T}/log/{n}.say','w'); s=time.time()
    p=subprocess.Popen([own+'/bin/rattle','build']+W,stdout=f,stderr=f)
    _,st,ru=os.wait4(p.pid,0); e=time.time()
    if st==0 and not main: open(f'{T}/stamp/{n}','w').write(stamp(n)+'\n')
    with lock:
        out.write(f'{n} {e-s:.1f} {ru.ru_utime:.1f} {ru.ru_stime:.1f} {ru.ru_maxrss//1024} {st}\n'); out.flush()
    return st
def worker():
    while True:
        with cond:
            while True:
                if len(started)==len(deps): return
                ready=[n for n in deps if n not in started and all(d not in deps or d in done for d in deps[n])]
                if ready: break
                cond.wait()
            n=max(ready,key=height); started.add(n)
        st=one(n)
        with cond:
            if st==0: done.add(n)
            else: print('FAILED',n); done.add(n)
            cond.notify_all()
t0=time.time()
ts=[threading.Thread(target=worker) for _ in range(N)]
[t.start() for t in ts]; [t.join() for t in ts]
print(f'wall {time.time()-t0:.0f}')
