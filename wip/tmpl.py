#!/usr/bin/env python3
"""tmpl.py to FILE..: paths of a proof become @field. tmpl.py fill LISTING FILE: and back, by tools/paths.py's listing."""
import re,sys
B=lambda n:' .before'*n
def to(text):
    def fix(m):
        pre=m.group(0)
        f=m.group(2)
        return '@'+f if f else '@RECORD'
    # let NAME = c .before .. in
    def let(m):
        name=m.group(1)
        return f"let {name} = @{ {'start':'START','l':'LOOP'}.get(name,'RECORD-'+name)} in"
    text=re.sub(r'let (\w+) = c(?: \.before)+ in',let,text)
    text=re.sub(r'\bc((?: \.before)*) \.(?!before)([\w·-]+)',fix,text)
    return text
def listing(path):
    L={}
    for l in open(path):
        m=re.match(r'\s+([\w-]+): (.*)$',l)
        if m:
            d={}
            for w in m.group(2).split():
                n,fs=w.split(':',1)
                for f in fs.split('/'): d.setdefault(f,int(n))
            L[m.group(1)]=d
    return L
def fill(text,L):
    out=[];need=None;bad=[]
    for line in text.split('\n'):
        m=re.match(r'^([\w-]+) c( κs)? =',line)
        if m: need=m.group(1)
        elif re.match(r'^[\w-]+ :',line): pass
        def fix(m):
            f=m.group(1)
            d=L.get(need)
            if d is None: bad.append((need,'no need')); return m.group(0)
            if f=='START': return 'c'+B(d['args'])
            if f=='LOOP': return 'c'+B(d['loop'])
            k='args' if f in('pre','good','args') else f
            if k not in d: bad.append((need,f)); return m.group(0)
            return 'c'+B(d[k])+' .'+f
        out.append(re.sub(r'@([\w·-]+)',fix,line))
    return '\n'.join(out),bad
if sys.argv[1]=='to':
    for p in sys.argv[2:]:
        s=open(p).read(); t=to(s); open(p,'w').write(t); print(p,t.count('@'),[w for w in re.findall(r'@RECORD[\w-]*',t)])
else:
    L=listing(sys.argv[2]); p=sys.argv[3]; s=open(p).read(); t,bad=fill(s,L); open(p,'w').write(t); print(p,'bad:',bad[:10], 'needs missing:',[n for n in L if not re.search(r'(?m)^'+n+r' c',t)], 'needs gone:',[n for n in re.findall(r'(?m)^([\w-]+) c(?: κs)? =',t) if n not in L])
