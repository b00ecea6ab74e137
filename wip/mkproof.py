import sys,re,os
# mkproof.py ROOT < output of rt dev: writes each skeleton to its path where there is none yet
root=sys.argv[1]; lines=sys.stdin.read().split('\n'); i=0
while i<len(lines):
    m=re.search(r'help: write (\S+) with these lines',lines[i])
    if m:
        p=m.group(1); i+=1; out=[]
        while i<len(lines) and (lines[i].startswith('    ') or lines[i].strip()==''):
            out.append(lines[i][4:]); i+=1
        p=p if os.path.isabs(p) else os.path.join(root,p)
        if not os.path.exists(p):
            os.makedirs(os.path.dirname(p),exist_ok=True); open(p,'w').write('\n'.join(out).rstrip('\n')+'\n'); print('wrote',p)
        else: print('there is',p)
    else: i+=1
