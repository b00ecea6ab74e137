import re,collections,sys,subprocess
b,scene,want=sys.argv[1:4]
subprocess.run(['valgrind','--tool=callgrind','--dump-instr=yes','--callgrind-out-file=/tmp/cg.i',b+'/bench','--blocks','64','--only','room_desk',scene],capture_output=True,env={'GLIBC_TUNABLES':'glibc.cpu.x86_rep_stosb_threshold=1000000000:glibc.cpu.x86_rep_movsb_threshold=1000000000','PATH':'/usr/bin:/bin'})
cost=collections.Counter(); fn=None; names={}; addr=0; skip=False
for l in open('/tmp/cg.i'):
    l=l.rstrip('\n')
    m=re.match(r'fn=\((\d+)\)(?: (.*))?',l)
    if m:
        if m.group(2): names[m.group(1)]=m.group(2)
        fn=names.get(m.group(1)); continue
    m=re.match(r'(cfn|cfi|cob)=\((\d+)\)(?: (.*))?',l)
    if m:
        if m.group(1)=='cfn' and m.group(3): names[m.group(2)]=m.group(3)
        continue
    if l.startswith('calls='): skip=True; continue
    m=re.match(r'^(0x[0-9a-f]+|[+-]\d+|\*) (\S+) (\d+)',l)
    if m:
        a=m.group(1)
        if a=='*': pass
        elif a[0] in '+-': addr+=int(a)
        else: addr=int(a,16)
        if skip: skip=False; continue
        if fn and want in fn: cost[addr]+=int(m.group(3))
tot=sum(cost.values()); print('total',tot)
dis={}
out=subprocess.run(['objdump','-d','--no-show-raw-insn',b+'/bench'],capture_output=True,text=True).stdout
for l in out.split('\n'):
    m=re.match(r'\s*([0-9a-f]+):\s+(.*)',l)
    if m: dis[int(m.group(1),16)]=m.group(2)
base=0
for a,c in sorted(cost.items()):
    if c>tot/200: print(hex(a),c,dis.get(a,dis.get(a-0x400000,'?'))[:70])
