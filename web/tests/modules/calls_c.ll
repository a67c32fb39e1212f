; refused: C is called
source_filename = "rattle"
target datalayout = "e-m:e-p270:32:32-p271:32:32-p272:64:64-i64:64-i128:128-f80:128-n8:16:32:64-S128"
target triple = "x86_64-unknown-linux-gnu"

declare i32 @close(i32)

define i32 @qh_close(i32 %fd) {
  %r = call i32 @close(i32 %fd)
  ret i32 %r
}
