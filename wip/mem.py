import sys,os
sys.path.insert(0,'/work/bin'); import sim
root='/work/new'
deps=sim.load(root+'/crates.txt'); order,lv=sim.levels(deps)
t={};m={}
for l in open('/work/times2.log'):
    p=l.split()
    if p[4]=='build': t[p[5]]=float(p[1])+float(p[2]); m[p[5]]=max(float(p[3])/1048576,m.get(p[5],0)*0)
for n,v in dict(gain_segment=.38,decibels=.41,track_volume=.68,last_sounds=.67,mixer_orders=1.06,mixer_commands=.83,mixer_layout=.93,chunk_render=2.7,block_render=1.9,scene_blocks=2.5,scene_render=3.3,sound_advance=.37,silent_tracks=1.0,muted_or_held=.53,test_replay=.54,links=.38,moving_mixer=3,send_track=.6,track_sounds=.8,track=1.02).items(): m[n]=v
t.update(send_track=11,track_sounds=11,track=32)
edits=[]
for n in order:
    d=f'{root}/crates/{n}/must-fail'
    k=len([x for x in os.listdir(d) if x.endswith('.edit')]) if os.path.isdir(d) else 0
    edits+=[n]*k
def peak(ns):
    best=0
    for x in sorted({t.get(n,5) for n in ns}):
        s=sum(m.get(n,.5)*min(1,x/t.get(n,5)) for n in ns if t.get(n,5)>=x); best=max(best,s)
    return best
for J in (8,9,10,11,12,14,16):
    w=0;mx=(0,)
    for i in range(0,len(edits),J):
        b=edits[i:i+J]; w+=sim.batch([t.get(n,5) for n in b]); p=peak(b)
        if p>mx[0]: mx=(p,b)
    pr=0;pm=(0,)
    for L in range(max(lv.values())+1):
        ns=[n for n in order if lv[n]==L]
        for i in range(0,len(ns),J):
            b=ns[i:i+J]; pr+=sim.batch([t.get(n,5) for n in b]); p=peak(b)
            if p>pm[0]: pm=(p,b)
    print(J,f'proofs {pr/60:.1f} edits {w/60:.1f} min; most memory in edits {mx[0]:.1f} GB, in proofs {pm[0]:.1f}'); 
    if J in (11,12): print('   ',mx[1]); print('   ',pm[1])
