#!/bin/bash
# build.sh ROOT OUT: room_desk of ROOT compiled without proofs into OUT/libroom_desk.a
ROOT=$1; OUT=$2; rm -rf $OUT; mkdir -p $OUT/tc/bin
for f in ld.lld llvm-ar; do ln -sf /opt/rattle/on/x86_64/toolchain/bin/$f $OUT/tc/bin/$f; done
ln -sf /opt/rattle/on/x86_64/toolchain/lib $OUT/tc/lib
cat > $OUT/tc/bin/clang <<X
#!/bin/bash
for w in "\$@"; do case \$w in *.bc|*.ll) n=\$(ls $OUT/kept 2>/dev/null | wc -l); mkdir -p $OUT/kept; cp "\$w" $OUT/kept/\$n-\$(basename \$w);; esac; done
exec /opt/rattle/on/x86_64/toolchain/bin/clang "\$@"
X
chmod +x $OUT/tc/bin/clang
libs=$(python3 - $ROOT <<'P'
import sys
deps={}
for l in open(sys.argv[1]+'/crates.txt'):
    if ':' in l and not l.startswith('#'):
        a,b=l.split(':',1); deps[a.strip()]=b.split()
seen=[];todo=['room_desk']
while todo:
    d=todo.pop(0)
    if d in seen or d not in deps: continue
    seen.append(d); todo+=deps[d]
print(' '.join(seen))
P
)
mkdir -p $OUT/main/src
cat > $OUT/main/src/main.rt <<'X'
fn main() {
    let scene = [0u8; 1];
    let samples = [0.0f32; 1];
    let mut output = [0.0f32; 1];
    let number = room_desk::render(&scene, &samples, &samples, &mut output);
    let wrong = number == 77;
}
X
set -- --toolchain $OUT/tc $OUT/main/src/main.rt --crate-name main_of --lib std=/opt/rattle/libs/std/src/lib.rt
for d in $libs; do [ -f $ROOT/crates/$d/src/lib.rt ] && set -- "$@" --lib "$d=$ROOT/crates/$d/src/lib.rt"; done
shift 2; timeout 60 /opt/rattle/on/x86_64/bin/rattle-print-mir "$@" 2>&1 >/dev/null | grep -v "^$" | head -40; echo "rc $?" >> $OUT/log
