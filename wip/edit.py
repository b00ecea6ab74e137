#!/usr/bin/env python3
"""edit.py CRATE EDIT DEST: copies crate with the edit applied"""
import sys,shutil,os
c,e,d=sys.argv[1:4]
root=os.environ.get('ROOT','/work/main')
shutil.rmtree(d,ignore_errors=True); os.makedirs(d)
for p in ('src','specs','proofs'):
    s=f'{root}/crates/{c}/{p}'
    if os.path.isdir(s): shutil.copytree(s,f'{d}/{p}')
f=old=None
for line in open(e if '/' in e else f'{root}/crates/{c}/must-fail/{e}.edit',encoding='utf-8'):
    line=line.rstrip('\n')
    if line.startswith('file: '): f=line[6:]
    elif line.startswith('old: '): old=line[5:]
    elif line.startswith('new:'):
        new=line[4:]; new=new[1:] if new.startswith(' ') else new
        t=open(f'{d}/{f}',encoding='utf-8').read(); assert t.count(old)==1,(f,old,t.count(old))
        open(f'{d}/{f}','w',encoding='utf-8').write(t.replace(old,new))
