import re
def listing(path):
    L={}
    for l in open(path):
        m=re.match(r'\s+([\w-]+): (.*)$',l)
        if m:
            d={}
            for w in m.group(2).split():
                n,fs=w.split(':',1)
                for f in fs.split('/'): d[f]=int(n)
            L[m.group(1)]=d
    return L
B=lambda n:' .before'*n
def repath(text,d):
    def fix(m):
        pre,n,post=m.group(1),m.group(2).count('.before'),m.group(3)
        f=re.match(r' \.([\w·-]+)',post)
        if f and f.group(1) in d: return pre+B(d[f.group(1)])+post
        if f and f.group(1) in('pre','args','good','fits'): return pre+B(d['args'])+post
        return pre+'@'+str(n)+post
    return re.sub(r'(\bc)((?: \.before)*)((?: \.(?!before)[\w·-]+)?)',fix,text)
def blocks(text):
    # name -> (start,end) of each need's definition
    out=[]
    for m in re.finditer(r'(?m)^([\w-]+) c( κs)? =',text): out.append((m.group(1),m.start()))
    return out
