# many tracks paused and waiting to resume by clock or delay, one fade moving, one-frame chunks
import sys; sys.argv=['x','1','0']
exec(open('/work/adv.py').read().split("r=random")[0])
out=b''
for clocks in (1,8):
  for nt in (1,2,4,8,32):
    for kind in ('clock','delay','startedclock'):
        tracks=[0]*nt
        orders=[(0,0,0,-6000,0,0,0,3600000,0,0)]
        for i in range(nt):
            if kind!='startedclock':
                orders.append((0,4,i+1,0,0,0,0,0,0,0))
                orders.append((1,5,i+1,0,1 if kind=='clock' else 0,100000 if kind=='clock' else 3600000,0,10,0,0))
            else:
                orders.append((0,1,i+1,-6000,1,1,0,3600000,0,0))
        orders=orders[:128]
        orders.sort(key=lambda o:o[0])
        out+=scene(clocks,tracks,0,[],[],orders,buf=1)
sys.stdout.buffer.write(out)
