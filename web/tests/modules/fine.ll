; may be retargeted: a pointer in a slot of 8 bytes, a place counted in bytes, two numbers given back at once, and two pairs with a pointer
source_filename = "rattle"
target datalayout = "e-m:e-p270:32:32-p271:32:32-p272:64:64-i64:64-i128:128-f80:128-n8:16:32:64-S128"
target triple = "x86_64-unknown-linux-gnu"

define noundef i32 @qh_fine(ptr noundef %p, i64 noundef %n) {
  %slot = alloca [16 x i8], align 8
  store ptr %p, ptr %slot, align 8
  %t = getelementptr i8, ptr %slot, i64 8
  store i64 %n, ptr %t, align 8
  %q = load ptr, ptr %slot, align 8
  %r = load i32, ptr %q, align 4
  switch i32 %r, label %other [
    i32 0, label %none
    i32 1, label %other
  ]
none:
  ret i32 7
other:
  ret i32 %r
}

define internal { i8, i64 } @two(i64 %n) {
  %r = alloca [16 x i8], align 8
  store i8 1, ptr %r, align 8
  %t = getelementptr i8, ptr %r, i64 8
  store i64 %n, ptr %t, align 8
  %both = load { i8, i64 }, ptr %r, align 8
  ret { i8, i64 } %both
}

define i64 @qh_two(i64 %n) {
  %both = call { i8, i64 } @two(i64 %n)
  %m = extractvalue { i8, i64 } %both, 1
  ret i64 %m
}

define internal { ptr, i64 } @slice(ptr %p, i64 %n) {
  %r = alloca [16 x i8], align 8
  store ptr %p, ptr %r, align 8
  %t = getelementptr i8, ptr %r, i64 8
  store i64 %n, ptr %t, align 8
  %both = load { ptr, i64 }, ptr %r, align 8
  ret { ptr, i64 } %both
}

define internal { i8, ptr } @next(ptr %p) {
  %r = alloca [16 x i8], align 8
  store i8 1, ptr %r, align 8
  %t = getelementptr i8, ptr %r, i64 8
  store ptr %p, ptr %t, align 8
  %both = load { i8, ptr }, ptr %r, align 8
  ret { i8, ptr } %both
}

define i32 @qh_pairs(ptr %p, i64 %n) {
  %s = call { ptr, i64 } @slice(ptr %p, i64 %n)
  %q = extractvalue { ptr, i64 } %s, 0
  %o = call { i8, ptr } @next(ptr %q)
  %x = extractvalue { i8, ptr } %o, 1
  %v = load i32, ptr %x, align 4
  ret i32 %v
}
