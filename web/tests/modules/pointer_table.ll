; refused: a table of pointers has another size there
source_filename = "rattle"
target datalayout = "e-m:e-p270:32:32-p271:32:32-p272:64:64-i64:64-i128:128-f80:128-n8:16:32:64-S128"
target triple = "x86_64-unknown-linux-gnu"

@one = internal constant i32 1
@table = internal constant [2 x ptr] [ptr @one, ptr @one]

define i32 @qh_table() {
  ret i32 0
}
