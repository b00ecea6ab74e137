#!/bin/bash
# pc.sh SCENES: build /work/proto without proofs, count
bash /work/bin/build.sh /work/proto /work/protobuild; tail -1 /work/protobuild/log | grep -q 'rc 0' || { tail -3 /work/protobuild/log; sed -i 's/room_desk::room_desk_render(/room_desk::render(/' /work/bin/errors.sh; bash /work/bin/errors.sh /work/proto /work/protoerr 2>&1 | head; exit 1; }
bash /work/bin/lib.sh /work/protobuild && cp /work/protobuild/libroom_desk.a /work/proto/target/product/ && (cd /work/proto/bench && touch build.rs && cargo build --release --offline -q)
timeout 200 python3 /work/bin/counts.py /work/proto "$@"
