; refused: a step of one pointer is 8 bytes here and 4 there
source_filename = "rattle"
target datalayout = "e-m:e-p270:32:32-p271:32:32-p272:64:64-i64:64-i128:128-f80:128-n8:16:32:64-S128"
target triple = "x86_64-unknown-linux-gnu"

define ptr @qh_next(ptr %p) {
  %q = getelementptr ptr, ptr %p, i64 1
  %r = load ptr, ptr %q, align 8
  ret ptr %r
}
