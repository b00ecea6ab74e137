import re,sys
# speed.py BENCHLOG INSTRLOG: the two tables of "Now" in docs/SPEED.md
bench={}
for l in open(sys.argv[1]):
    m=re.match(r'([\w-]+)\s+\|\s+([\d.]+)\s+([\d.]+) \|\s+([\d.]+)\s+([\d.]+) \|\s+([\d.]+)\s+([\d.]+) \|\s+([\d.]+)\s+([\d.]+)',l)
    if m: bench[m.group(1)]=[float(x) for x in m.groups()[1:]]
def three(x):
    if x>=1000: return f'{x:,.0f}'
    if x>=100: return f'{x:.0f}'
    if x>=10: return f'{x:.1f}'
    return f'{x:.2f}'
p='docs/SPEED.md'; s=open(p).read()
def row(m):
    n=m.group(1)
    if n not in bench: return m.group(0)
    b=bench[n]; return f'| {n} | {three(b[1])} | {three(b[3])} | {three(b[5])} | {three(b[6])} | {three(b[7])} |'
i=s.index('| scene | ours |'); j=s.index('`paused` takes')
s=s[:i]+re.sub(r'(?m)^\| ([\w-]+) \| [\d.,]+ \|.*$',row,s[i:j])+s[j:]
if len(sys.argv)>2:
    instr={}
    for l in open(sys.argv[2]):
        m=re.match(r'([\w-]+)\s+([\d.,]+)\s+([\d.,]+)\s+([\d.,]+)',l)
        if m: instr[m.group(1)]=[float(x.replace(',','')) for x in m.groups()[1:]]
    def irow(m):
        n=m.group(1)
        if n not in instr: return m.group(0)
        a,b,c=instr[n]; return f'| {n} | {a:,.1f} | {b:,.1f} | {c:,.1f} | {b/a:.2f} |'
    i=s.index('| scene | ours | kira, `powf` | kira, table | `powf` / ours |\n'); j=s.index('## Step by step')
    s=s[:i]+re.sub(r'(?m)^\| ([\w-]+) \| [\d.,]+ \|.*$',irow,s[i:j])+s[j:]
open(p,'w').write(s)
print(bench.get('steady'))
