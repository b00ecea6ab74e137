import sys,struct
b=sys.stdin.buffer.read(); want=int(sys.argv[1]); at=0; n=0
while at+20<=len(b):
    w=struct.unpack('<5I',b[at:at+20]); size=20+w[1]+w[2]+w[3]
    if n==want: sys.stdout.buffer.write(b[at:at+size]); break
    at+=size; n+=1
