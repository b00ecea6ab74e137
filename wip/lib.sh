#!/bin/bash
# lib.sh OUT: OUT/libroom_desk.a from OUT/kept
set -e
OUT=$1; cd $OUT
CL=/opt/rattle/on/x86_64/toolchain/bin/clang
$CL --target=x86_64-unknown-linux-gnu -S -emit-llvm -O0 -Xclang -disable-llvm-passes -x ir kept/1-module.bc -o new.ll
python3 - <<'P'
s=open('new.ll').read()
s=s.replace('define i32 @main()','define internal i32 @unused_main()')
args=', '.join(f'ptr %p{i}, i64 %n{i}' for i in range(4))
f='define i32 @room_desk_render('+args+') #0 {\nstart:\n'
for i in range(4):
    f+=f'  %s{i} = alloca [16 x i8], align 8\n  store ptr %p{i}, ptr %s{i}, align 8\n  %q{i} = getelementptr i8, ptr %s{i}, i64 8\n  store i64 %n{i}, ptr %q{i}, align 8\n'
f+='  %r = call i32 @"room_desk::rendering::render"(ptr %s0, ptr %s1, ptr %s2, ptr %s3)\n  ret i32 %r\n}\n\n'
i=s.index('define internal i32 @unused_main')
s=s[:i]+f+s[i:]
open('newx.ll','w').write(s)
P
W="--target=x86_64-unknown-linux-gnu -march=x86-64 -ffunction-sections -fdata-sections -mllvm -trap-unreachable -mllvm -no-trap-after-noreturn --no-default-config -no-canonical-prefixes -fintegrated-cc1 -fno-crash-diagnostics -c -x ir"
$CL $W newx.ll -o room_desk.o -fPIC -O3 -Xclang -fmerge-functions -mllvm -mergefunc-use-aliases --sysroot=tc
rm -f libroom_desk.a; ar rcs libroom_desk.a room_desk.o
