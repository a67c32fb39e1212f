; refused: a number becomes a pointer
source_filename = "rattle"
target datalayout = "e-m:e-p270:32:32-p271:32:32-p272:64:64-i64:64-i128:128-f80:128-n8:16:32:64-S128"
target triple = "x86_64-unknown-linux-gnu"

define i32 @qh_peek(i64 %n) {
  %p = inttoptr i64 %n to ptr
  %r = load i32, ptr %p, align 4
  ret i32 %r
}
