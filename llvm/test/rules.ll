; A pair for each rule: @src.NAME is written out by the plugin, @tgt.NAME is the same by hand, in what
; tv reads. The line before a pair is the row that `tv-check --lower` has to say of it. The pairs are
; judged the other way round too, where the kind has to be the same, unless `one way` is said.

target datalayout = "e-m:e-p270:32:32-p271:32:32-p272:64:64-i64:64-i128:128-f80:128-n8:16:32:64-S128"

%pair = type { i64, i64 }
%mixed = type { i8, i32, [3 x i16] }
%empty = type { [0 x i32], i32 }

@number = external global i32, align 4
@other = external global i32, align 4
@fields = external global { i32, i32 }, align 4
@many = external global [100 x i8], align 16
@fixed = external constant i32, align 4
@perhaps = extern_weak global i32, align 4
@each = external thread_local global i32, align 4

declare i8 @llvm.smax.i8(i8, i8)
declare i8 @llvm.umin.i8(i8, i8)
declare i8 @llvm.abs.i8(i8, i1)
declare i8 @llvm.ctlz.i8(i8, i1)
declare i8 @llvm.ctpop.i8(i8)
declare i8 @llvm.fshl.i8(i8, i8, i8)
declare i16 @llvm.bswap.i16(i16)
declare i8 @llvm.uadd.sat.i8(i8, i8)
declare { i8, i1 } @llvm.sadd.with.overflow.i8(i8, i8)
declare { i8, i1 } @llvm.umul.with.overflow.i8(i8, i8)
declare i8 @llvm.expect.i8(i8, i8)
declare void @llvm.assume(i1)
declare void @llvm.donothing()
declare void @llvm.prefetch.p0(ptr, i32, i32, i32)
declare void @llvm.memset.p0.i64(ptr, i8, i64, i1)
declare void @llvm.lifetime.start.p0(i64, ptr)
declare void @llvm.lifetime.end.p0(i64, ptr)

; correct by smax
define i8 @src.smax(i8 %x, i8 %y) {
  %r = call i8 @llvm.smax.i8(i8 %x, i8 %y)
  ret i8 %r
}
define i8 @tgt.smax(i8 %x, i8 %y) {
  %c = icmp slt i8 %x, %y
  %r = select i1 %c, i8 %y, i8 %x
  ret i8 %r
}

; correct by umin
define i8 @src.umin_poison(i8 %x) {
  %r = call i8 @llvm.umin.i8(i8 0, i8 poison)
  ret i8 %r
}
define i8 @tgt.umin_poison(i8 %x) {
  ret i8 poison
}

; incorrect by umin
define i8 @src.umin_wrong(i8 %x) {
  %r = call i8 @llvm.umin.i8(i8 %x, i8 7)
  ret i8 %r
}
define i8 @tgt.umin_wrong(i8 %x) {
  %c = icmp slt i8 %x, 7
  %r = select i1 %c, i8 %x, i8 7
  ret i8 %r
}

; correct by abs
define i8 @src.abs(i8 %x) {
  %r = call i8 @llvm.abs.i8(i8 %x, i1 false)
  ret i8 %r
}
define i8 @tgt.abs(i8 %x) {
  %s = ashr i8 %x, 7
  %f = xor i8 %x, %s
  %r = sub i8 %f, %s
  ret i8 %r
}

; correct by abs
define i8 @src.abs_poison(i8 %x) {
  %r = call i8 @llvm.abs.i8(i8 %x, i1 true)
  ret i8 %r
}
define i8 @tgt.abs_poison(i8 %x) {
  %n = sub nsw i8 0, %x
  %c = icmp sgt i8 %x, -1
  %r = select i1 %c, i8 %x, i8 %n
  ret i8 %r
}

; correct by ctlz
define i8 @src.ctlz(i8 %x) {
  %m = and i8 %x, 3
  %r = call i8 @llvm.ctlz.i8(i8 %m, i1 true)
  ret i8 %r
}
define i8 @tgt.ctlz(i8 %x) {
  %m = and i8 %x, 3
  %z = icmp eq i8 %m, 0
  %o = icmp eq i8 %m, 1
  %n = select i1 %o, i8 7, i8 6
  %r = select i1 %z, i8 poison, i8 %n
  ret i8 %r
}

; correct by ctpop
define i8 @src.ctpop(i8 %x) {
  %m = and i8 %x, 129
  %r = call range(i8 0, 9) i8 @llvm.ctpop.i8(i8 %m)
  ret i8 %r
}
define i8 @tgt.ctpop(i8 %x) {
  %h = lshr i8 %x, 7
  %l = and i8 %x, 1
  %r = add i8 %h, %l
  ret i8 %r
}

; correct by ctpop
define i8 @src.call_range(i8 %x) {
  %r = call range(i8 0, 2) i8 @llvm.ctpop.i8(i8 %x)
  ret i8 %r
}
define i8 @tgt.call_range(i8 %x) {
  %n = sub i8 0, %x
  %l = and i8 %x, %n
  %o = icmp eq i8 %l, %x
  %z = icmp ne i8 %x, 0
  %n1 = zext i1 %z to i8
  %r = select i1 %o, i8 %n1, i8 poison
  ret i8 %r
}

; correct by fshl
define i8 @src.rotate(i8 %x, i8 %n) {
  %r = call i8 @llvm.fshl.i8(i8 %x, i8 %x, i8 %n)
  ret i8 %r
}
define i8 @tgt.rotate(i8 %x, i8 %n) {
  %m = and i8 %n, 7
  %l = shl i8 %x, %m
  %b = sub i8 0, %n
  %k = and i8 %b, 7
  %h = lshr i8 %x, %k
  %r = or i8 %l, %h
  ret i8 %r
}

; correct by bswap
define i16 @src.bswap(i16 %x) {
  %r = call i16 @llvm.bswap.i16(i16 %x)
  ret i16 %r
}
define i16 @tgt.bswap(i16 %x) {
  %l = shl i16 %x, 8
  %h = lshr i16 %x, 8
  %r = or i16 %l, %h
  ret i16 %r
}

; correct by uadd.sat
define i8 @src.uadd_sat(i8 %x, i8 %y) {
  %r = call i8 @llvm.uadd.sat.i8(i8 %x, i8 %y)
  ret i8 %r
}
define i8 @tgt.uadd_sat(i8 %x, i8 %y) {
  %n = xor i8 %x, -1
  %c = icmp ult i8 %n, %y
  %s = add i8 %x, %y
  %r = select i1 %c, i8 -1, i8 %s
  ret i8 %r
}

; correct by sadd.with.overflow
define i8 @src.sadd(i8 %x, i8 %y) {
  %p = call { i8, i1 } @llvm.sadd.with.overflow.i8(i8 %x, i8 %y)
  %s = extractvalue { i8, i1 } %p, 0
  %o = extractvalue { i8, i1 } %p, 1
  %r = select i1 %o, i8 0, i8 %s
  ret i8 %r
}
define i8 @tgt.sadd(i8 %x, i8 %y) {
  %a = sext i8 %x to i16
  %b = sext i8 %y to i16
  %w = add nsw i16 %a, %b
  %s = trunc i16 %w to i8
  %e = sext i8 %s to i16
  %o = icmp ne i16 %e, %w
  %r = select i1 %o, i8 0, i8 %s
  ret i8 %r
}

; correct by umul.with.overflow
define i1 @src.umul(i8 %x) {
  %p = call { i8, i1 } @llvm.umul.with.overflow.i8(i8 %x, i8 16)
  %o = extractvalue { i8, i1 } %p, 1
  ret i1 %o
}
define i1 @tgt.umul(i8 %x) {
  %o = icmp ugt i8 %x, 15
  ret i1 %o
}

; correct by hint
define i8 @src.hint(i8 %x) {
  %r = call i8 @llvm.expect.i8(i8 %x, i8 1)
  call void @llvm.donothing()
  ret i8 %r
}
define i8 @tgt.hint(i8 %x) {
  ret i8 %x
}

; correct by assume
define i8 @src.assume(i8 %x) {
  %c = icmp ult i8 %x, 2
  call void @llvm.assume(i1 %c)
  ret i8 %x
}
define i8 @tgt.assume(i8 %x) {
  %c = icmp ult i8 %x, 2
  br i1 %c, label %good, label %bad
good:
  ret i8 %x
bad:
  unreachable
}

; correct [blocks 1] by assume; fault may hide: assume-bundle
define i8 @src.assume_bundle(ptr %p, i8 %x) {
  ret i8 %x
}
define i8 @tgt.assume_bundle(ptr %p, i8 %x) {
  call void @llvm.assume(i1 true) [ "align"(ptr %p, i64 8) ]
  ret i8 %x
}

; correct by constant
define i64 @src.constant() {
  %r = add i64 ptrtoint (ptr getelementptr (%mixed, ptr null, i64 1) to i64), 1
  ret i64 %r
}
define i64 @tgt.constant() {
  ret i64 17
}

; correct by constant
define i8 @src.switch() {
  switch i64 ptrtoint (ptr getelementptr (i32, ptr null, i64 1) to i64), label %no [ i64 4, label %yes ]
yes:
  ret i8 1
no:
  ret i8 0
}
define i8 @tgt.switch() {
  ret i8 1
}

; correct [blocks 1 bytes 12] by gep-bytes
define i32 @src.field(ptr %p) {
  %f = getelementptr inbounds %mixed, ptr %p, i64 0, i32 1
  %r = load i32, ptr %f
  ret i32 %r
}
define i32 @tgt.field(ptr %p) {
  %f = getelementptr inbounds i8, ptr %p, i64 4
  %r = load i32, ptr %f
  ret i32 %r
}

; correct [blocks 1 bytes 12] by gep-bytes
define i16 @src.field_of_array(ptr %p, i32 %i) {
  %f = getelementptr inbounds %mixed, ptr %p, i64 0, i32 2, i32 %i
  %r = load i16, ptr %f
  ret i16 %r
}
define i16 @tgt.field_of_array(ptr %p, i32 %i) {
  %a = getelementptr inbounds i8, ptr %p, i64 8
  %f = getelementptr inbounds i16, ptr %a, i32 %i
  %r = load i16, ptr %f
  ret i16 %r
}

; correct [blocks 1] by gep-bytes
define ptr @src.first_field(ptr %p) {
  %f = getelementptr inbounds %mixed, ptr %p, i64 0, i32 0
  ret ptr %f
}
define ptr @tgt.first_field(ptr %p) {
  ret ptr %p
}

; correct [blocks 1] by gep-bytes
define ptr @src.element(ptr %p, i64 %i) {
  %f = getelementptr %mixed, ptr %p, i64 %i
  ret ptr %f
}
define ptr @tgt.element(ptr %p, i64 %i) {
  %f = getelementptr [16 x i8], ptr %p, i64 %i
  ret ptr %f
}

; incorrect [blocks 1] by gep-bytes
define ptr @src.wrong_field(ptr %p) {
  %f = getelementptr inbounds %mixed, ptr %p, i64 0, i32 1
  ret ptr %f
}
define ptr @tgt.wrong_field(ptr %p) {
  %f = getelementptr inbounds i8, ptr %p, i64 1
  ret ptr %f
}

; refused source Unsupported type %empty
define ptr @src.field_without_bytes(ptr %p) {
  %f = getelementptr inbounds %empty, ptr %p, i64 0, i32 1
  ret ptr %f
}
define ptr @tgt.field_without_bytes(ptr %p) {
  ret ptr %p
}

; correct [blocks 1] by gep-wrap; fault may hide: gep-wrap
define ptr @src.wrap(ptr %p, i64 %i) {
  %f = getelementptr i32, ptr %p, i64 %i
  ret ptr %f
}
define ptr @tgt.wrap(ptr %p, i64 %i) {
  %f = getelementptr nuw i32, ptr %p, i64 %i
  %g = getelementptr i32, ptr %p, i64 %i
  ret ptr %g
}

; correct by alloca-bytes, gep-bytes
define i32 @src.alloca(i32 %x) {
  %a = alloca %mixed
  %f = getelementptr inbounds %mixed, ptr %a, i64 0, i32 1
  store i32 %x, ptr %f
  %r = load i32, ptr %f
  ret i32 %r
}
define i32 @tgt.alloca(i32 %x) {
  ret i32 %x
}

; correct [bytes 24] by aggregate-parts
define void @src.copy(ptr %p, ptr %q) {
  %v = load %pair, ptr %p
  store %pair %v, ptr %q
  ret void
}
define void @tgt.copy(ptr %p, ptr %q) {
  %a = load i64, ptr %p, align 8
  %p8 = getelementptr i8, ptr %p, i64 8
  %b = load i64, ptr %p8, align 8
  store i64 %a, ptr %q, align 8
  %q8 = getelementptr i8, ptr %q, i64 8
  store i64 %b, ptr %q8, align 8
  ret void
}

; correct by range
define range(i8 0, 10) i8 @src.return_range(i8 %x) {
  ret i8 %x
}
define i8 @tgt.return_range(i8 %x) {
  %c = icmp ult i8 %x, 10
  %r = select i1 %c, i8 %x, i8 poison
  ret i8 %r
}

; correct by range
define range(i8 -2, 3) i8 @src.signed_range(i8 %x) {
  ret i8 %x
}
define i8 @tgt.signed_range(i8 %x) {
  %c = icmp sge i8 %x, -2
  %d = icmp slt i8 %x, 3
  %e = and i1 %c, %d
  %r = select i1 %e, i8 %x, i8 poison
  ret i8 %r
}

; correct by range
define i8 @src.range(i8 range(i8 1, 0) %x) {
  %r = add i8 %x, 0
  ret i8 %r
}
define i8 @tgt.range(i8 %x) {
  %c = icmp eq i8 %x, 0
  %r = select i1 %c, i8 poison, i8 %x
  ret i8 %r
}

; correct by range
define i8 @src.noundef_range(i8 noundef range(i8 0, 4) %x) {
  ret i8 0
}
define i8 @tgt.noundef_range(i8 noundef %x) {
  %c = icmp ult i8 %x, 4
  br i1 %c, label %good, label %bad
good:
  ret i8 0
bad:
  unreachable
}

; correct [blocks 1] by !range
define i8 @src.load_range(ptr %p) {
  %v = load i8, ptr %p, !range !0
  ret i8 %v
}
define i8 @tgt.load_range(ptr %p) {
  %v = load i8, ptr %p
  %l = icmp ult i8 %v, 2
  %u = icmp uge i8 %v, 200
  %d = icmp ult i8 %v, 253
  %h = and i1 %u, %d
  %c = or i1 %l, %h
  %r = select i1 %c, i8 %v, i8 poison
  ret i8 %r
}

; correct [blocks 1] by !noundef
define i8 @src.load_noundef(ptr %p) {
  %v = load i8, ptr %p, !noundef !1
  ret i8 0
}
define i8 @tgt.load_noundef(ptr %p) {
  %v = load i8, ptr %p
  %c = icmp ult i8 %v, 7
  br i1 %c, label %good, label %good2
good:
  ret i8 0
good2:
  ret i8 0
}

; correct [blocks 1] by nocapture, nofree, readonly
define i8 @src.kept(ptr nocapture readonly nofree %p) {
  %v = load i8, ptr %p
  ret i8 %v
}
define i8 @tgt.kept(ptr %p) {
  %v = load i8, ptr %p
  ret i8 %v
}

; correct [blocks 1] by readonly; fault may hide: arg0:readonly
define void @src.broken_readonly(ptr %p) {
  store i8 1, ptr %p
  ret void
}
define void @tgt.broken_readonly(ptr readonly %p) {
  store i8 1, ptr %p
  ret void
}

; correct [blocks 1] by nocapture
define ptr @src.captured(ptr nocapture %p) {
  ret ptr %p
}
define ptr @tgt.captured(ptr nocapture %p) {
  %q = getelementptr i8, ptr %p, i64 0
  ret ptr %q
}

; incorrect by noalias; false alarm possible: arg0:noalias
define i8 @src.noalias(ptr noalias %p, ptr %q) {
  store i8 1, ptr %p
  store i8 2, ptr %q
  %v = load i8, ptr %p
  ret i8 %v
}
define i8 @tgt.noalias(ptr noalias %p, ptr %q) {
  store i8 1, ptr %p
  store i8 2, ptr %q
  ret i8 1
}

; correct by noalias
define i8 @src.noalias_read(ptr noalias %p, ptr %q) {
  %v = load i8, ptr %p
  %w = load i8, ptr %q
  %r = add i8 %v, %w
  ret i8 %r
}
define i8 @tgt.noalias_read(ptr noalias %p, ptr %q) {
  %w = load i8, ptr %q
  %v = load i8, ptr %p
  %r = add i8 %w, %v
  ret i8 %r
}

; correct [blocks 1] by align, dereferenceable
define i8 @src.of_caller(ptr align 4 dereferenceable(4) %p) {
  %v = load i8, ptr %p
  ret i8 %v
}
define i8 @tgt.of_caller(ptr align 4 dereferenceable(4) %p) {
  %v = load i8, ptr %p
  %w = add i8 %v, 0
  ret i8 %w
}

; correct [blocks 1] by align; fault may hide: arg0:align(4)
define i8 @src.made_align(ptr %p) {
  %v = load i8, ptr %p
  ret i8 %v
}
define i8 @tgt.made_align(ptr align 4 %p) {
  %v = load i8, ptr %p
  ret i8 %v
}

; correct [blocks 1] by dereferenceable; fault may hide: arg0:dereferenceable(40)
define i8 @src.made_dereferenceable(ptr %p) {
  ret i8 0
}
define i8 @tgt.made_dereferenceable(ptr dereferenceable(40) %p) {
  ret i8 0
}

; correct [blocks 1] by writeonly; fault may hide: arg0:writeonly
define i8 @src.broken_writeonly(ptr %p) {
  %v = load i8, ptr %p
  ret i8 %v
}
define i8 @tgt.broken_writeonly(ptr writeonly %p) {
  %v = load i8, ptr %p
  ret i8 %v
}

; correct [blocks 1 bytes 16] by nocapture, readnone; fault may hide: arg0:nocapture, arg0:readnone
define void @src.stored(ptr %p, ptr %q, i1 %c) {
  %s = select i1 %c, ptr %p, ptr %q
  store ptr %s, ptr %q
  ret void
}
define void @tgt.stored(ptr nocapture readnone %p, ptr %q, i1 %c) {
  %s = select i1 %c, ptr %p, ptr %q
  store ptr %s, ptr %q
  ret void
}

; correct [blocks 1] by noalias
define void @src.noalias_alone(ptr noalias %p, ptr %q) {
  %n = getelementptr i8, ptr %p, i64 1
  store i8 1, ptr %n
  ret void
}
define void @tgt.noalias_alone(ptr noalias %p, ptr %q) {
  %n = getelementptr i8, ptr %p, i64 1
  store i8 0, ptr %n
  store i8 1, ptr %n
  ret void
}

; correct [blocks 1] by align; fault may hide: ret:align(8)
define ptr @src.return_align(ptr %p) {
  ret ptr %p
}
define align 8 ptr @tgt.return_align(ptr %p) {
  ret ptr %p
}

; correct [blocks 1 bytes 16] by !nonnull; fault may hide: !nonnull
define ptr @src.load_nonnull(ptr %p) {
  %v = load ptr, ptr %p
  ret ptr %v
}
define ptr @tgt.load_nonnull(ptr %p) {
  %v = load ptr, ptr %p, !nonnull !1
  ret ptr %v
}

; correct [blocks 1] by returned
define ptr @src.returned(ptr returned %p) {
  ret ptr %p
}
define ptr @tgt.returned(ptr returned %p) {
  %q = getelementptr i8, ptr %p, i64 0
  ret ptr %p
}

; correct [blocks 1] by nonnull; fault may hide: ret:nonnull
define ptr @src.return_nonnull(ptr %p) {
  ret ptr %p
}
define nonnull ptr @tgt.return_nonnull(ptr %p) {
  ret ptr %p
}

; correct [blocks 1] by nonnull
define nonnull ptr @src.known_nonnull(ptr nonnull %p) {
  %q = getelementptr inbounds i8, ptr %p, i64 1
  ret ptr %q
}
define nonnull ptr @tgt.known_nonnull(ptr nonnull %p) {
  %q = getelementptr inbounds [1 x i8], ptr %p, i64 1
  ret ptr %q
}

; correct [blocks 1] by !tbaa; fault may hide: !tbaa
define i32 @src.tbaa(ptr %p) {
  %v = load i32, ptr %p
  ret i32 %v
}
define i32 @tgt.tbaa(ptr %p) {
  %v = load i32, ptr %p, !tbaa !2
  ret i32 %v
}

; correct by lifetime
define i8 @src.lifetime(i8 %x) {
  %a = alloca i8
  call void @llvm.lifetime.start.p0(i64 1, ptr %a)
  store i8 %x, ptr %a
  %r = load i8, ptr %a
  call void @llvm.lifetime.end.p0(i64 1, ptr %a)
  ret i8 %r
}
define i8 @tgt.lifetime(i8 %x) {
  ret i8 %x
}

; correct by lifetime; fault may hide: lifetime
define i8 @src.use_after_end(i8 %x) {
  ret i8 %x
}
define i8 @tgt.use_after_end(i8 %x) {
  %a = alloca i8
  call void @llvm.lifetime.start.p0(i64 1, ptr %a)
  store i8 %x, ptr %a
  call void @llvm.lifetime.end.p0(i64 1, ptr %a)
  %r = load i8, ptr %a
  ret i8 %r
}

; correct by lifetime; fault may hide: lifetime
define i8 @src.lifetime_in_loop(i8 %x, i1 %c) {
  ret i8 %x
}
define i8 @tgt.lifetime_in_loop(i8 %x, i1 %c) {
entry:
  %a = alloca i8
  br label %loop
loop:
  call void @llvm.lifetime.start.p0(i64 1, ptr %a)
  store i8 %x, ptr %a
  %r = load i8, ptr %a
  call void @llvm.lifetime.end.p0(i64 1, ptr %a)
  br i1 false, label %loop, label %done
done:
  ret i8 %r
}

; correct by lifetime; fault may hide: lifetime
define i8 @src.start_in_loop(i8 %x) {
  ret i8 %x
}
define i8 @tgt.start_in_loop(i8 %x) {
entry:
  %a = alloca i8
  br label %loop
loop:
  %again = phi i1 [ false, %entry ], [ true, %put ]
  call void @llvm.lifetime.start.p0(i64 1, ptr %a)
  br i1 %again, label %get, label %put
put:
  store i8 %x, ptr %a
  br label %loop
get:
  %r = load i8, ptr %a
  ret i8 %r
}

; correct
define i8 @src.printed(i16 %x) {
  trunc nsw nuw i16 %x to i8
  %r = add nsw nuw i8 %1, 300
  ret i8 %r
}
define i8 @tgt.printed(i16 %x) {
  %t = trunc nuw nsw i16 %x to i8
  %r = add nuw nsw i8 %t, 44
  ret i8 %r
}

; correct [blocks 1] by hint
define void @src.prefetch(ptr %p) {
  call void @llvm.prefetch.p0(ptr nonnull %p, i32 0, i32 3, i32 1)
  call void @llvm.prefetch.p0(ptr poison, i32 1, i32 3, i32 1)
  ret void
}
define void @tgt.prefetch(ptr %p) {
  ret void
}

; refused source Unsupported call @llvm.prefetch.p0
define void @src.prefetch_noundef(ptr %p) {
  call void @llvm.prefetch.p0(ptr noundef %p, i32 0, i32 3, i32 1)
  ret void
}
define void @tgt.prefetch_noundef(ptr %p) {
  ret void
}

; correct [blocks 1 bytes 11] by memset
define void @src.memset(ptr %p, i8 %x) {
  call void @llvm.memset.p0.i64(ptr noundef nonnull align 4 dereferenceable(7) %p, i8 %x, i64 7, i1 false)
  ret void
}
define void @tgt.memset(ptr %p, i8 %x) {
  store i8 %x, ptr %p, align 4
  %p1 = getelementptr i8, ptr %p, i64 1
  store i8 %x, ptr %p1
  %p2 = getelementptr i8, ptr %p, i64 2
  store i8 %x, ptr %p2
  %p3 = getelementptr i8, ptr %p, i64 3
  store i8 %x, ptr %p3
  %p4 = getelementptr i8, ptr %p, i64 4
  store i8 %x, ptr %p4
  %p5 = getelementptr i8, ptr %p, i64 5
  store i8 %x, ptr %p5
  %p6 = getelementptr i8, ptr %p, i64 6
  store i8 %x, ptr %p6
  ret void
}

; incorrect [blocks 1] by memset
define void @src.memset_less(ptr %p) {
  call void @llvm.memset.p0.i64(ptr %p, i8 7, i64 3, i1 false)
  ret void
}
define void @tgt.memset_less(ptr %p) {
  store i32 117901063, ptr %p, align 1
  ret void
}

; correct [blocks 1 bytes 16] by memset
define void @src.memset_align(ptr %p) {
  call void @llvm.memset.p0.i64(ptr align 8 %p, i8 -1, i64 8, i1 false)
  ret void
}
define void @tgt.memset_align(ptr %p) {
  store i64 -1, ptr %p, align 8
  ret void
}

; correct by memset
define i16 @src.memset_poison() {
  %a = alloca i16
  call void @llvm.memset.p0.i64(ptr %a, i8 poison, i64 2, i1 false)
  %v = load i16, ptr %a
  ret i16 %v
}
define i16 @tgt.memset_poison() {
  ret i16 poison
}

; correct by memset
define i64 @src.memset_local() {
  %a = alloca [5 x i32]
  call void @llvm.memset.p0.i64(ptr align 4 %a, i8 1, i64 19, i1 false)
  %q = getelementptr i8, ptr %a, i64 11
  %v = load i64, ptr %q, align 1
  ret i64 %v
}
define i64 @tgt.memset_local() {
  ret i64 72340172838076673
}

; correct [blocks 1] by memset, nocapture, writeonly
define void @src.memset_promises(ptr nocapture writeonly %p) {
  call void @llvm.memset.p0.i64(ptr %p, i8 1, i64 1, i1 false)
  ret void
}
define void @tgt.memset_promises(ptr %p) {
  store i8 1, ptr %p
  ret void
}

; refused source Unsupported call @llvm.memset.p0.i64
define void @src.memset_more_promised(ptr %p) {
  call void @llvm.memset.p0.i64(ptr dereferenceable(9) %p, i8 1, i64 8, i1 false)
  ret void
}
define void @tgt.memset_more_promised(ptr %p) {
  store i64 72340172838076673, ptr %p, align 1
  ret void
}

; refused source Unsupported call @llvm.memset.p0.i64
define void @src.memset_volatile(ptr %p) {
  call void @llvm.memset.p0.i64(ptr %p, i8 1, i64 8, i1 true)
  ret void
}
define void @tgt.memset_volatile(ptr %p) {
  store i64 72340172838076673, ptr %p, align 1
  ret void
}

; refused source Unsupported call @llvm.memset.p0.i64
define void @src.memset_nothing(ptr %p) {
  call void @llvm.memset.p0.i64(ptr noundef %p, i8 1, i64 0, i1 false)
  ret void
}
define void @tgt.memset_nothing(ptr %p) {
  ret void
}

; correct [blocks 1] by global
define i32 @src.global(i32 %x) {
  store i32 %x, ptr @number
  %v = load i32, ptr @number
  ret i32 %v
}
define i32 @tgt.global(i32 %x) {
  store i32 %x, ptr @number
  ret i32 %x
}

; incorrect [blocks 1] by global; false alarm possible: @number
define void @src.global_value() {
  store i32 1, ptr @number
  ret void
}
define void @tgt.global_value() {
  store i32 2, ptr @number
  ret void
}

; refused source Unsupported global @number
define void @src.global_other() {
  store i32 1, ptr @number
  ret void
}
define void @tgt.global_other() {
  store i32 1, ptr @other
  ret void
}

; refused source Unsupported global @number
define i32 @src.global_two() {
  store i32 1, ptr @number
  store i32 2, ptr @other
  %v = load i32, ptr @number
  ret i32 %v
}
define i32 @tgt.global_two() {
  store i32 1, ptr @number
  store i32 2, ptr @other
  ret i32 1
}

; correct [blocks 1] by global
define i32 @src.global_unused(i32 %x) {
  %v = load i32, ptr @number
  ret i32 %x
}
define i32 @tgt.global_unused(i32 %x) {
  ret i32 %x
}

; correct [blocks 1] by global
define i32 @src.global_memory(i1 noundef %c) {
  br i1 %c, label %read, label %not
read:
  %v = load i32, ptr @number, align 1
  ret i32 %v
not:
  ret i32 0
}
define i32 @tgt.global_memory(i1 noundef %c) {
  %v = load i32, ptr @number, align 4
  %r = select i1 %c, i32 %v, i32 0
  ret i32 %r
}

; correct [blocks 1 bytes 17] by global
define i8 @src.global_many(i64 %x, i1 noundef %c) {
  %p = getelementptr inbounds [100 x i8], ptr @many, i64 0, i64 %x
  %v = load i8, ptr %p
  br i1 %c, label %read, label %not
read:
  %w = load i8, ptr @many
  ret i8 %w
not:
  ret i8 %v
}
define i8 @tgt.global_many(i64 %x, i1 noundef %c) {
  %p = getelementptr inbounds [100 x i8], ptr @many, i64 0, i64 %x
  %v = load i8, ptr %p
  %w = load i8, ptr @many, align 16
  %r = select i1 %c, i8 %w, i8 %v
  ret i8 %r
}

; incorrect [blocks 1 bytes 10] by global; false alarm possible: @number
define i8 @src.global_past(i1 noundef %c) {
  br i1 %c, label %read, label %not
read:
  %v = load i8, ptr getelementptr (i8, ptr @number, i64 4)
  ret i8 %v
not:
  %w = load i8, ptr getelementptr (i8, ptr @number, i64 5)
  ret i8 %w
}
define i8 @tgt.global_past(i1 noundef %c) {
  %v = load i8, ptr getelementptr (i8, ptr @number, i64 4)
  %w = load i8, ptr getelementptr (i8, ptr @number, i64 5)
  %r = select i1 %c, i8 %w, i8 %v
  ret i8 %r
}

; correct [blocks 1 bytes 12] by gep-bytes, global
define i32 @src.global_field(i1 %c) {
entry:
  br i1 %c, label %one, label %end
one:
  br label %end
end:
  %p = phi ptr [ @fields, %entry ], [ getelementptr inbounds ({ i32, i32 }, ptr @fields, i64 0, i32 1), %one ]
  %v = load i32, ptr %p
  ret i32 %v
}
define i32 @tgt.global_field(i1 %c) {
  br i1 %c, label %one, label %zero
one:
  %p = getelementptr i8, ptr @fields, i64 4
  %v = load i32, ptr %p
  ret i32 %v
zero:
  %w = load i32, ptr @fields
  ret i32 %w
}

; correct [blocks 1] by global
define ptr @src.global_returned() {
  ret ptr @number
}
define ptr @tgt.global_returned() {
  %p = getelementptr i8, ptr @number, i64 0
  ret ptr %p
}

; correct [blocks 1] by global; fault may hide: @fixed:constant
define void @src.global_constant() {
  store i32 5, ptr @fixed
  ret void
}
define void @tgt.global_constant() {
  %v = add i32 2, 3
  store i32 %v, ptr @fixed
  ret void
}

; correct [blocks 1] by global
define i32 @src.global_constant_read() {
  %v = load i32, ptr @fixed
  ret i32 %v
}
define i32 @tgt.global_constant_read() {
  %v = load i32, ptr @fixed, align 4
  %w = add i32 %v, 0
  ret i32 %w
}

; refused source Unsupported getelementptr
define i32 @src.global_inrange() {
  %v = load i32, ptr getelementptr inbounds inrange(0, 4) ({ i32, i32 }, ptr @fields, i64 0, i32 1)
  ret i32 %v
}
define i32 @tgt.global_inrange() {
  %v = load i32, ptr @fields
  ret i32 %v
}

; refused source Unsupported global @perhaps
define i32 @src.global_weak() {
  %v = load i32, ptr @perhaps
  ret i32 %v
}
define i32 @tgt.global_weak() {
  %unused = add i8 0, 0
  %v = load i32, ptr @perhaps, align 4
  ret i32 %v
}

; refused source Unsupported global @each
define i32 @src.global_of_thread() {
  %v = load i32, ptr @each
  ret i32 %v
}
define i32 @tgt.global_of_thread() {
  %unused = add i8 0, 0
  %v = load i32, ptr @each, align 4
  ret i32 %v
}

; correct by header; fault may hide: header:coldcc
define coldcc i8 @src.header(i8 %x) section ".text.cold" align 16 {
  ret i8 %x
}
define i8 @tgt.header(i8 %x) {
  ret i8 %x
}

; correct [blocks 1] by dereferenceable
define i8 @src.dereferenceable(ptr dereferenceable(4) %p) {
  ret i8 0
}
define i8 @tgt.dereferenceable(ptr %p) {
  %a = load i8, ptr %p
  %q = getelementptr i8, ptr %p, i64 3
  %b = load i8, ptr %q
  ret i8 0
}

; incorrect [blocks 1] by dereferenceable
define i8 @src.dereferenceable_other(ptr dereferenceable(2) %p, ptr %q) {
  ret i8 0
}
define i8 @tgt.dereferenceable_other(ptr %p, ptr dereferenceable(2) %q) {
  ret i8 0
}

; correct [blocks 1 bytes 24] by align, dereferenceable
define i8 @src.aligned_bytes(ptr align 8 dereferenceable(16) %p) {
  ret i8 0
}
define i8 @tgt.aligned_bytes(ptr %p) {
  %a = load i8, ptr %p, align 8
  %q = getelementptr i8, ptr %p, i64 15
  %b = load i8, ptr %q
  ret i8 0
}

; correct [blocks 1] by align, dereferenceable, nonnull
define nonnull align 2 dereferenceable(3) ptr @src.return_bytes(ptr %p) {
  ret ptr %p
}
define ptr @tgt.return_bytes(ptr %p) {
  %a = load i8, ptr %p, align 2
  %q = getelementptr i8, ptr %p, i64 2
  %b = load i8, ptr %q
  ret ptr %p
}

; correct by dereferenceable; fault may hide: ret:dereferenceable(1)
define ptr @src.return_local() {
  %a = alloca i8
  ret ptr %a
}
define dereferenceable(1) ptr @tgt.return_local() {
  %a = alloca i8
  ret ptr %a
}

; correct [blocks 1] by nonnull
define nonnull ptr @src.both_nonnull(ptr %p) {
  ret ptr %p
}
define nonnull ptr @tgt.both_nonnull(ptr %p) {
  %q = getelementptr i8, ptr %p, i64 0
  ret ptr %p
}

; correct [blocks 1] by nonnull; fault may hide: ret:nonnull
define nonnull ptr @src.nonnull_defined(ptr noundef %p) {
  ret ptr %p
}
define noundef nonnull ptr @tgt.nonnull_defined(ptr noundef %p) {
  ret ptr %p
}

; correct [bytes 16] by !dereferenceable
define ptr @src.load_bytes(ptr %p) {
  %v = load ptr, ptr %p, !dereferenceable !6, !align !7, !nonnull !1, !noundef !1
  ret ptr null
}
define ptr @tgt.load_bytes(ptr %p) {
  %v = load ptr, ptr %p
  %a = load i8, ptr %v, align 4
  %q = getelementptr i8, ptr %v, i64 4
  %b = load i8, ptr %q
  ret ptr null
}

; correct [blocks 1] by !tbaa
define i32 @src.tbaa_kept(ptr %p) {
  %v = load i32, ptr %p, !tbaa !2
  %r = add i32 %v, %v
  ret i32 %r
}
define i32 @tgt.tbaa_kept(ptr %p) {
  %v = load i32, ptr %p, !tbaa !2
  %r = shl i32 %v, 1
  ret i32 %r
}

; correct [blocks 1] by !tbaa; fault may hide: !tbaa
define i32 @src.tbaa_other(ptr %p) {
  %v = load i32, ptr %p, !tbaa !2
  ret i32 %v
}
define i32 @tgt.tbaa_other(ptr %p) {
  %v = load i32, ptr %p, !tbaa !8
  ret i32 %v
}

; correct [blocks 1] by !tbaa, align, dereferenceable; fault may hide: !tbaa
define i32 @src.tbaa_hoisted(ptr align 4 dereferenceable(4) %p, i1 noundef %c) {
  br i1 %c, label %then, label %else
then:
  %v = load i32, ptr %p, !tbaa !2
  ret i32 %v
else:
  ret i32 0
}
define i32 @tgt.tbaa_hoisted(ptr align 4 dereferenceable(4) %p, i1 noundef %c) {
  %v = load i32, ptr %p, !tbaa !2
  %r = select i1 %c, i32 %v, i32 0
  ret i32 %r
}

; correct by noalias
define void @src.noalias_kept(ptr noalias %p, ptr %q) {
  store i8 1, ptr %p
  store i8 2, ptr %q
  ret void
}
define void @tgt.noalias_kept(ptr noalias %p, ptr %q) {
  %two = add i8 1, 1
  store i8 1, ptr %p
  store i8 %two, ptr %q
  ret void
}

; correct by dereferenceable, noalias; fault may hide: arg0:noalias
define void @src.noalias_more(ptr noalias %p, ptr dereferenceable(1) %q) {
  store i8 1, ptr %p
  ret void
}
define void @tgt.noalias_more(ptr noalias %p, ptr dereferenceable(1) %q) {
  %v = load i8, ptr %q
  store i8 1, ptr %p
  ret void
}

; correct [blocks 1] by compared; fault may hide: store
define void @src.stores_back(ptr %p) {
  %v = load i8, ptr %p
  %c = icmp eq i8 %v, 7
  br i1 %c, label %seven, label %other
seven:
  ret void
other:
  ret void
}
define void @tgt.stores_back(ptr %p) {
  %v = load i8, ptr %p
  %c = icmp eq i8 %v, 7
  br i1 %c, label %seven, label %other
seven:
  store i8 7, ptr %p
  ret void
other:
  ret void
}

; correct [blocks 1] by !noundef; fault may hide: store
define void @src.stores_sometimes(ptr %p, i1 noundef %c) {
  %v = load i32, ptr %p, !noundef !1
  br i1 %c, label %then, label %end
then:
  store i32 7, ptr %p
  br label %end
end:
  ret void
}
define void @tgt.stores_sometimes(ptr %p, i1 noundef %c) {
  %v = load i32, ptr %p, !noundef !1
  %r = select i1 %c, i32 7, i32 %v
  store i32 %r, ptr %p
  ret void
}

; correct [blocks 1]
define void @src.stores_on_both(ptr %p, i1 noundef %c) {
  br i1 %c, label %then, label %else
then:
  store i32 7, ptr %p
  ret void
else:
  store i32 8, ptr %p
  ret void
}
define void @tgt.stores_on_both(ptr %p, i1 noundef %c) {
  %r = select i1 %c, i32 7, i32 8
  store i32 %r, ptr %p
  ret void
}

; incorrect [bytes 16]
define void @src.alignments(ptr %p, ptr %q) {
  %a = load i64, ptr %p, align 4
  %b = load i64, ptr %q, align 8
  ret void
}
define void @tgt.alignments(ptr %p, ptr %q) {
  %a = load i64, ptr %p, align 8
  %b = load i64, ptr %q, align 4
  ret void
}

; refused source Unsupported call @tv.refuses.null_pointer_is_valid by refuse
define void @src.null_valid(ptr %p) null_pointer_is_valid {
  store i8 0, ptr %p
  ret void
}
define void @tgt.null_valid(ptr nonnull %p) null_pointer_is_valid {
  store i8 0, ptr %p
  ret void
}

; correct
define i8 @src.null_valid_unused(i8 %x) null_pointer_is_valid {
  ret i8 %x
}
define i8 @tgt.null_valid_unused(i8 %x) {
  ret i8 %x
}

; refused source Unsupported call @tv.refuses.naked by refuse
define i8 @src.naked(i8 %x) naked {
  ret i8 %x
}
define i8 @tgt.naked(i8 %x) {
  ret i8 %x
}

!0 = !{i8 -56, i8 -3, i8 0, i8 2}
!1 = !{}
!2 = !{!3, !3, i64 0}
!3 = !{!"int", !4}
!4 = !{!"omnipotent char", !5}
!5 = !{!"Simple C/C++ TBAA"}
!6 = !{i64 5}
!7 = !{i64 4}
!8 = !{!9, !9, i64 0}
!9 = !{!"float", !4}
