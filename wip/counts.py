import sys; sys.path.insert(0,sys.argv[1]+'/bench')
import os; os.chdir(sys.argv[1])
import instructions as I
for s in sys.argv[2:]:
    print(s, round(I.a_frame('room_desk',s),2), flush=True)
