; What no rule is for, or what a rule might trip over: the plugin must leave it as it is, and tv
; refuses it, or the rule keeps what it means.

target datalayout = "e-m:e-p270:32:32-p271:32:32-p272:64:64-i64:64-i128:128-f80:128-n8:16:32:64-S128"

%struct = type { i8, i64, float }

@global = global i32 7
@"two words" = global i32 7
@text = private constant [4 x i8] c"abc\00"
@label = constant ptr blockaddress(@jumps, %second)
@alias = alias i32, ptr @global

declare i32 @__gxx_personality_v0(...)
declare void @throws()
declare i32 @called(ptr, i32)
declare i8 @llvm.smax.i8(i8, i8)
declare <4 x i32> @llvm.smax.v4i32(<4 x i32>, <4 x i32>)
declare i128 @llvm.umin.i128(i128, i128)
declare { i8, i1 } @llvm.sadd.with.overflow.i8(i8, i8)
declare void @llvm.assume(i1)
declare void @llvm.lifetime.start.p0(i64, ptr)
declare void @llvm.memcpy.p0.p0.i64(ptr, ptr, i64, i1)

define i32 @names_a_global(i32 %a) {
  %v = load i32, ptr @global
  %w = load i8, ptr getelementptr inbounds ([4 x i8], ptr @text, i64 0, i64 1)
  %z = zext i8 %w to i32
  %s = add i32 %v, %z
  %t = add i32 %s, ptrtoint (ptr @global to i32)
  ret i32 %t
}

define i32 @one_global_everywhere(i1 %c, i32 %x) {
entry:
  %agg = insertvalue { ptr, i32 } undef, ptr @global, 0
  br i1 %c, label %one, label %two
one:
  call void @llvm.assume(i1 true) [ "align"(ptr @global, i64 4) ]
  br label %two
two:
  %p = phi ptr [ @global, %entry ], [ getelementptr (i8, ptr @global, i64 2), %one ]
  store { ptr, i32 } { ptr @global, i32 3 }, ptr %p
  store ptr @global, ptr @global
  %r = call i32 @one_global_everywhere(i1 %c, i32 ptrtoint (ptr @global to i32))
  %f = call i32 @called(ptr @global, i32 %r)
  ret i32 %f
}

define i32 @tail_with_global(i32 %a) {
  %b = load i32, ptr @global
  %r = musttail call i32 @tail_with_global(i32 %b)
  ret i32 %r
}

define i32 @jumps_with_global(i32 %a) {
  indirectbr ptr blockaddress(@jumps_with_global, %second), [label %second]
second:
  %b = load i32, ptr @global
  ret i32 %b
}

define void @pushed_with_global(ptr inalloca(i32) %a) {
  store i32 1, ptr @global
  ret void
}

define void @more_with_global(i32 %a, ...) {
  store i32 1, ptr @global
  ret void
}

define i32 @quoted_global() {
  %v = load i32, ptr @"two words"
  ret i32 %v
}

define ptr @alias_and_global() {
  store ptr @alias, ptr @global
  ret ptr @alias
}

define i32 @calls(ptr %a, i32 %x) {
  %r = call i32 @called(ptr nocapture %a, i32 %x), !range !0
  %s = add i32 %r, %x
  ret i32 %s
}

define i32 @itself(i32 %a) {
  %b = add i32 %a, 1
  %r = musttail call i32 @itself(i32 %b)
  ret i32 %r
}

define <4 x i32> @vector(<4 x i32> %a, <4 x i32> %b) {
  %m = call <4 x i32> @llvm.smax.v4i32(<4 x i32> %a, <4 x i32> %b)
  %s = add <4 x i32> %m, %a
  ret <4 x i32> %s
}

define i128 @wide(i128 %a, i128 %b) {
  %m = call i128 @llvm.umin.i128(i128 %a, i128 %b)
  %s = add i128 %m, %a
  ret i128 %s
}

define float @floats(float %a, ptr %p) {
  %q = getelementptr inbounds %struct, ptr %p, i64 0, i32 2
  %v = load float, ptr %q, !noundef !1
  %s = fadd nnan float %v, %a
  ret float %s
}

define i8 @undef_operand(i8 %a) {
  %u = add i8 undef, %a
  %m = call i8 @llvm.smax.i8(i8 %u, i8 %a)
  %s = add i8 %m, 1
  ret i8 %s
}

define { i8, i1 } @whole_pair(i8 %a, i8 %b) {
  %p = call { i8, i1 } @llvm.sadd.with.overflow.i8(i8 %a, i8 %b)
  %s = add i8 %a, 1
  %q = insertvalue { i8, i1 } %p, i8 %s, 0
  ret { i8, i1 } %q
}

define void @bundles(ptr %a, i8 %b) {
  call void @llvm.assume(i1 true) [ "align"(ptr %a, i64 8) ]
  %s = add i8 %b, 1
  store i8 %s, ptr %a
  ret void
}

define i8 @invokes(i8 %a) personality ptr @__gxx_personality_v0 {
  invoke void @throws() to label %good unwind label %bad
good:
  %s = add i8 %a, 1
  ret i8 %s
bad:
  %p = landingpad { ptr, i32 } cleanup
  resume { ptr, i32 } %p
}

define i8 @jumps(i8 %a) {
  %s = add i8 %a, 1
  indirectbr ptr blockaddress(@jumps, %second), [label %first, label %second]
first:
  ret i8 0
second:
  ret i8 %s
}

define ptr @foreign_block(i8 %a) {
  %s = add i8 %a, 1
  ret ptr blockaddress(@jumps, %second)
}

define i32 @assembly(i32 %a) {
  %r = call i32 asm "mov $1, $0", "=r,r"(i32 %a)
  %s = add i32 %r, 1
  ret i32 %s
}

define i8 @dynamic(i64 %a) {
  %p = alloca %struct, i64 %a
  %q = alloca i1, align 16
  %big = alloca [1000 x %struct]
  call void @llvm.lifetime.start.p0(i64 -1, ptr %q)
  %s = add i64 %a, 1
  %e = getelementptr inbounds [1000 x %struct], ptr %big, i64 0, i64 %s, i32 1
  store i64 %s, ptr %e
  %v = load i8, ptr %q
  ret i8 %v
}

define void @atomics(ptr %a) {
  %v = load atomic i32, ptr %a seq_cst, align 4
  %w = load volatile i32, ptr %a, !range !0
  %s = add i32 %v, %w
  store volatile i32 %s, ptr %a
  %x = atomicrmw add ptr %a, i32 1 seq_cst
  ret void
}

define void @spaces(ptr addrspace(1) %a, i64 %b) {
  %s = add i64 %b, 1
  %p = getelementptr %struct, ptr addrspace(1) %a, i64 %s, i32 1
  store i64 %s, ptr addrspace(1) %p
  ret void
}

define void @by_value(ptr byval(%struct) align 8 %a, ptr sret(%struct) align 8 %b) {
  %v = load %struct, ptr %a
  store %struct %v, ptr %b
  call void @llvm.memcpy.p0.p0.i64(ptr %b, ptr %a, i64 24, i1 false)
  ret void
}

define i8 @0(i8 %a) {
  %s = add i8 %a, 0
  ret i8 %s
}

define i8 @"a name, quoted"(i8 %a) {
  %s = add i8 %a, 1
  ret i8 %s
}

define i64 @dead_phi(i64 %a) {
entry:
  ret i64 %a
loop:
  %p = phi i64 [ %s, %loop ]
  %s = add i64 %p, 1
  br label %loop
}

!0 = !{i32 0, i32 9}
!1 = !{}
