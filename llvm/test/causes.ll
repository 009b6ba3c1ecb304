; Functions for the pass tv-causes. The comment before each has its causes, or `none`; tv refuses just
; those that have one (test_plugin.py).

%struct = type { i32, i32 }
@variable = global i32 0
@vtable = global ptr null
declare i32 @called(i32, ...)
declare void @llvm.memcpy.p0.p0.i64(ptr, ptr, i64, i1)
declare void @llvm.memmove.p0.p0.i64(ptr, ptr, i64, i1)
declare void @llvm.memset.p0.i64(ptr, i8, i64, i1)
declare i8 @llvm.smax.i8(i8, i8)
declare void @llvm.trap()
declare i32 @__gxx_personality_v0(...)

; none
define noundef i32 @reads(ptr nonnull noundef %p, i32 signext %n) unnamed_addr nounwind {
  %q = getelementptr inbounds nuw [4 x i32], ptr %p, i64 0, i32 %n
  %v = load i32, ptr %q, align 4
  %s = add nuw nsw i32 %v, undef
  %f = freeze i32 %s
  ret i32 %f
}

; none
define ptr @chooses(i1 %c, ptr %p) {
  %l = alloca [64 x i8], align 16
  %r = select i1 %c, ptr null, ptr %p, !prof !0
  store ptr %l, ptr %p, align 8
  ret ptr %r
}

; direct-call
define i32 @calls(i32 %n) {
  %r = call i32 (i32, ...) @called(i32 %n)
  ret i32 %r
}

; direct-call function-address global
define i32 @calls_with(i32 %n) {
  %r = call i32 (i32, ...) @called(i32 %n, ptr @variable, ptr @called)
  ret i32 %r
}

; global indirect-call
define i32 @calls_by_table() {
  %f = load ptr, ptr getelementptr (i8, ptr @vtable, i64 8)
  %r = call i32 %f()
  ret i32 %r
}

; asm
define void @assembly() {
  call void asm sideeffect "nop", ""()
  ret void
}

; llvm.smax
define i8 @greatest(i8 %a, i8 %b) {
  %r = call i8 @llvm.smax.i8(i8 %a, i8 %b)
  ret i8 %r
}

; llvm.trap
define void @traps() {
  call void @llvm.trap()
  unreachable
}

; memcpy-64 memmove-large memset-variable
define void @copies(ptr %a, ptr %b, i64 %n) {
  call void @llvm.memcpy.p0.p0.i64(ptr %a, ptr %b, i64 64, i1 false)
  call void @llvm.memmove.p0.p0.i64(ptr %a, ptr %b, i64 65, i1 false)
  call void @llvm.memset.p0.i64(ptr %a, i8 0, i64 %n, i1 false)
  ret void
}

; pointer-null-compare
define i1 @is_null(ptr %p) {
  %c = icmp eq ptr %p, null
  ret i1 %c
}

; pointer-compare
define i1 @is_below(ptr %p, ptr %q) {
  %c = icmp ult ptr %p, %q
  ret i1 %c
}

; pointer-to-integer
define i64 @address(ptr %p) {
  %n = ptrtoint ptr %p to i64
  ret i64 %n
}

; global pointer-to-integer
define i64 @address_of_variable() {
  ret i64 ptrtoint (ptr @variable to i64)
}

; constant-expression
define ptr @expression() {
  ret ptr getelementptr (i8, ptr null, i64 8)
}

; float
define float @floats(float %a, float %b) {
  %s = fadd float %a, %b
  %n = fneg float %s
  ret float %n
}

; float vector
define <2 x float> @float_vectors(<2 x float> %a) {
  %s = fmul <2 x float> %a, %a
  ret <2 x float> %s
}

; vector
define i32 @lanes(<4 x i32> %a) {
  %e = extractelement <4 x i32> %a, i32 1
  ret i32 %e
}

; aggregate
define i32 @fields(%struct %s, ptr %p) {
  %f = extractvalue %struct %s, 1
  %q = getelementptr inbounds %struct, ptr %p, i64 0, i32 1
  store i32 %f, ptr %q
  ret i32 %f
}

; wide-integer
define i128 @wide(i128 %a) {
  %s = add i128 %a, 1
  ret i128 %s
}

; volatile
define void @volatile(ptr %p) {
  store volatile i32 1, ptr %p
  ret void
}

; atomic
define i32 @atomic(ptr %p) {
  %v = load atomic i32, ptr %p acquire, align 4
  %w = atomicrmw add ptr %p, i32 %v seq_cst
  fence seq_cst
  ret i32 %w
}

; large-alloca
define ptr @large() {
  %l = alloca [65 x i8]
  ret ptr %l
}

; variable-alloca
define ptr @variable_length(i32 %n) {
  %l = alloca i8, i32 %n
  ret ptr %l
}

; large-array
define ptr @far(ptr %p, i64 %n) {
  %q = getelementptr [1048577 x i8], ptr %p, i64 %n
  ret ptr %q
}

; gep-flags
define ptr @unsigned(ptr %p, i64 %n) {
  %q = getelementptr nuw i8, ptr %p, i64 %n
  ret ptr %q
}

; undef
define i32 @divides(i32 %n) {
  %u = add i32 undef, %n
  %d = udiv i32 1, %u
  ret i32 %d
}

; undef
define i32 @meets(i1 %c, i32 %n) {
  br i1 %c, label %then, label %end
then:
  br label %end
end:
  %r = phi i32 [ undef, %0 ], [ %n, %then ]
  ret i32 %r
}

; !range !tbaa
define i32 @attached(ptr %p) {
  %v = load i32, ptr %p, !tbaa !1, !range !4
  ret i32 %v
}

; attribute-noalias attribute-nonnull calling-convention header
define coldcc nonnull ptr @header(ptr noalias %p) section "s" {
  ret ptr %p
}

; vararg
define void @more(i32 %n, ...) {
  ret void
}

; parameters
define void @many(i1, i1, i1, i1, i1, i1, i1, i1, i1, i1, i1, i1, i1, i1, i1, i1, i1) {
  ret void
}

; block-address indirect-branch
define void @jumps() {
  indirectbr ptr blockaddress(@jumps, %end), [label %end]
end:
  ret void
}

; direct-call exception
define void @throws() personality ptr @__gxx_personality_v0 {
  invoke void @traps() to label %good unwind label %bad
good:
  ret void
bad:
  %l = landingpad i64 cleanup
  resume i64 %l
}

!0 = !{!"branch_weights", i32 1, i32 1}
!1 = !{!2, !2, i64 0}
!2 = !{!"int", !3, i64 0}
!3 = !{!"tree"}
!4 = !{i32 0, i32 8}
