; refused: a place in memory becomes a number
source_filename = "rattle"
target datalayout = "e-m:e-p270:32:32-p271:32:32-p272:64:64-i64:64-i128:128-f80:128-n8:16:32:64-S128"
target triple = "x86_64-unknown-linux-gnu"

define i64 @qh_address(ptr %p) {
  %n = ptrtoaddr ptr %p to i64
  ret i64 %n
}
