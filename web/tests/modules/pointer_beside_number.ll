; refused: a number beside a pointer lies at another place there
source_filename = "rattle"
target datalayout = "e-m:e-p270:32:32-p271:32:32-p272:64:64-i64:64-i128:128-f80:128-n8:16:32:64-S128"
target triple = "x86_64-unknown-linux-gnu"

define internal { ptr, i32 } @pair(ptr %p) {
  %r = alloca [16 x i8], align 8
  store ptr %p, ptr %r, align 8
  %n = getelementptr i8, ptr %r, i64 8
  store i32 1, ptr %n, align 4
  %both = load { ptr, i32 }, ptr %r, align 8
  ret { ptr, i32 } %both
}

define i32 @qh_pair(ptr %p) {
  %both = call { ptr, i32 } @pair(ptr %p)
  %n = extractvalue { ptr, i32 } %both, 1
  ret i32 %n
}
