#!/usr/bin/env python3
"""extract.py ROOT FROM TO specs=A,B laws=C,D src=e,f pub=name,.. : moves modules of one crate to a new one, and the names in all crates"""
import sys,os,re,glob,subprocess
root,frm,to=sys.argv[1:4]
opt=dict(a.split('=',1) for a in sys.argv[4:])
specs=[x for x in opt.get('specs','').split(',') if x]; laws=[x for x in opt.get('laws','').split(',') if x]; src=[x for x in opt.get('src','').split(',') if x]
os.chdir(root+'/crates')
def mv(a,b):
    os.makedirs(os.path.dirname(b),exist_ok=True); subprocess.check_call(['git','mv',a,b])
for m in specs: mv(f'{frm}/specs/{m}.antt',f'{to}/specs/{m}.antt')
for m in laws: mv(f'{frm}/proofs/laws/{m}.antt',f'{to}/proofs/laws/{m}.antt')
for m in src:
    mv(f'{frm}/src/{m}.rt',f'{to}/src/{m}.rt')
    if os.path.isdir(f'{frm}/proofs/{m}'): mv(f'{frm}/proofs/{m}',f'{to}/proofs/{m}')
def files(c): return [f for f in glob.glob(f'{c}/**/*',recursive=True) if f.endswith(('.antt','.rt'))]
sp='|'.join(map(re.escape,specs)) or '(?!)'; lp='|'.join(map(re.escape,laws)) or '(?!)'; rp='|'.join(map(re.escape,src)) or '(?!)'
touched=set()
for c in sorted(os.listdir('.')):
    for f in files(c):
        s=o=open(f,encoding='utf-8').read()
        if c==to:
            s=re.sub(rf'Rattle·{frm}·specs\.specs\.(declared\.(?:{rp})|{sp})\b',rf'Rattle·{to}·specs.specs.\1',s)
            s=re.sub(rf'Rattle·{frm}·proofs\.proofs\.(laws\.(?:{lp})|{rp})\b',rf'Rattle·{to}·proofs.proofs.\1',s)
            s=re.sub(rf'Rattle·{frm}·specs\.specs\.',rf'Rattle·{frm}.specs.',s)
            s=re.sub(rf'Rattle·{frm}·proofs\.proofs\.',rf'Rattle·{frm}.proofs.',s)
        elif c==frm:
            s=re.sub(rf'Rattle·{frm}·specs\.specs\.(declared\.(?:{rp})|{sp})\b',rf'Rattle·{to}.specs.\1',s)
            s=re.sub(rf'Rattle·{frm}·proofs\.proofs\.laws\.({lp})\b',rf'Rattle·{to}.proofs.laws.\1',s)
            s=re.sub(rf'\buse crate::(?:{rp})::',f'use {to}::',s)
        else:
            s=re.sub(rf'Rattle·{frm}\.specs\.(declared\.(?:{rp})|{sp})\b',rf'Rattle·{to}.specs.\1',s)
            s=re.sub(rf'Rattle·{frm}\.proofs\.laws\.({lp})\b',rf'Rattle·{to}.proofs.laws.\1',s)
        if s!=o:
            open(f,'w',encoding='utf-8').write(s)
            if c not in (to,): touched.add(c)
# module lists
def unlist(f,names):
    if not os.path.exists(f): return
    s=open(f).read().split('\n'); s=[l for l in s if not (l.startswith('pub mod ') and l[8:].strip() in names)]
    open(f,'w').write('\n'.join(s))
unlist(f'{frm}/specs/Lib.antt',specs); unlist(f'{frm}/proofs/laws.antt',laws)
def put(f,t):
    os.makedirs(os.path.dirname(f),exist_ok=True)
    if not os.path.exists(f): open(f,'w').write(t)
if specs: put(f'{to}/specs/Lib.antt',''.join(f'pub mod {m}\n' for m in specs))
if laws: put(f'{to}/proofs/laws.antt',''.join(f'pub mod {m}\n' for m in laws)); put(f'{to}/proofs/Lib.antt','pub mod laws\n')
print('references changed in',sorted(touched))
for f in files(to):
    s=open(f,encoding='utf-8').read()
    if f'Rattle·{frm}.' in s: print('still names',frm,':',f)
    if 'use crate::' in s: print('crate:: in',f,re.findall(r'use crate::.*',s))
