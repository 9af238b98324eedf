; A module of the form that the compiler makes for x86-64 Linux, for the tests of ports/retarget.py: it takes memory, calls a
; function of the system, and gives a call of the library.
source_filename = "rattle"
target datalayout = "e-m:e-p270:32:32-p271:32:32-p272:64:64-i64:64-i128:128-f80:128-n8:16:32:64-S128"
target triple = "x86_64-unknown-linux-gnu"

@static.0 = private unnamed_addr constant [13 x i8] c"/thread_local", align 1

define internal { i64, i64 } @"crate::take"(i64 noundef %a0) #0 {
start:
  %r0 = call { i64, i64 } @rattle_alloc(i64 %a0, i64 8)
  ret { i64, i64 } %r0
}

define internal { i64, i64 } @"crate::take_more"(ptr noundef %a0, i64 noundef %a1) #0 {
start:
  %r0 = icmp eq i64 %a1, 0
  br i1 %r0, label %none, label %some

none:
  ret { i64, i64 } zeroinitializer

some:
  %r1 = call { i64, i64 } @rattle_realloc(ptr %a0, i64 8, i64 %a1, i64 8)
  ret { i64, i64 } %r1
}

define noundef i32 @pdb_version(ptr noundef %a0, i16 noundef %a1) #1 {
start:
  %r0 = call { i64, i64 } @"crate::take"(i64 16)
  %r1 = extractvalue { i64, i64 } %r0, 1
  %r2 = inttoptr i64 %r1 to ptr
  call void @llvm.memset.p0.i64(ptr %r2, i8 0, i64 16, i1 false)
  %r3 = call { i64, i64 } @"crate::take_more"(ptr %r2, i64 32)
  %r4 = extractvalue { i64, i64 } %r3, 1
  %r5 = inttoptr i64 %r4 to ptr
  %r6 = call i64 @read(i32 0, ptr %r5, i64 32)
  call void @rattle_dealloc(ptr %r5)
  %r7 = trunc i64 %r6 to i32
  ret i32 %r7
}

declare { i64, i64 } @rattle_alloc(i64 noundef, i64 noundef) #2

declare { i64, i64 } @rattle_realloc(ptr noundef, i64 noundef, i64 noundef, i64 noundef) #2

declare void @rattle_dealloc(ptr noundef) #2

declare noundef i64 @read(i32 noundef, ptr noundef, i64 noundef) #2

declare void @llvm.memset.p0.i64(ptr writeonly captures(none), i8, i64, i1 immarg) #3

attributes #0 = { nounwind "probe-stack"="inline-asm" "stack-probe-size"="3072" "target-cpu"="x86-64-v2" }
attributes #1 = { noinline nounwind "probe-stack"="inline-asm" "stack-probe-size"="3072" "target-cpu"="x86-64-v2" }
attributes #2 = { nobuiltin nounwind }
attributes #3 = { nocallback nofree nounwind willreturn memory(argmem: write) }

!llvm.ident = !{!0}

!0 = !{!"rattle logic=0"}
