#!/bin/bash
# pb.sh ROOT BUILD: without proofs, and the bench over it
R=$1; B=$2
bash /work/bin/build.sh $R $B; tail -1 $B/log | grep -q 'rc 0' || { tail -3 $B/log; bash /work/bin/errors.sh $R /work/protoerr 2>&1 | head -20; exit 1; }
bash /work/bin/lib.sh $B && mkdir -p $R/target/product && cp $B/libroom_desk.a $R/target/product/ && (cd $R/bench && touch build.rs && cargo build --release --offline -q)
