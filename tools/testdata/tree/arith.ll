target datalayout = "e-m:e-i64:64-n8:16:32:64-S128"

; A module for the tests of tools/: what its functions become is said in testdata/wrong-opt.
define i8 @twice(i8 %x) {
  %r = add i8 %x, %x
  ret i8 %r
}

define i8 @bad_sum(i8 %x, i8 %y) {
  %r = add i8 %x, %y
  ret i8 %r
}

define i8 @never(i8 %x) {
  %r = add i8 %x, %x
  unreachable
}

define i64 @heavy(i64 %x, i64 %y) {
  %a0 = mul i64 %x, %y  %a1 = mul i64 %a0, %y  %a2 = mul i64 %a1, %y  %a3 = mul i64 %a2, %y  %a4 = mul i64 %a3, %y  %a = mul i64 %a4, %y
  %b0 = mul i64 %a, %y  %b1 = mul i64 %b0, %y  %b2 = mul i64 %b1, %y  %b3 = mul i64 %b2, %y  %b4 = mul i64 %b3, %y  %b = mul i64 %b4, %y
  %c0 = mul i64 %b, %y  %c1 = mul i64 %c0, %y  %c2 = mul i64 %c1, %y  %c3 = mul i64 %c2, %y  %c4 = mul i64 %c3, %y  %c = mul i64 %c4, %y
  %d0 = mul i64 %c, %y  %d1 = mul i64 %d0, %y  %d2 = mul i64 %d1, %y  %d3 = mul i64 %d2, %y  %d4 = mul i64 %d3, %y  %d = mul i64 %d4, %y
  %e0 = mul i64 %d, %y  %e1 = mul i64 %e0, %y  %e2 = mul i64 %e1, %y  %e3 = mul i64 %e2, %y  %e4 = mul i64 %e3, %y  %e = mul i64 %e4, %y
  %f0 = mul i64 %e, %y  %f1 = mul i64 %f0, %y  %f2 = mul i64 %f1, %y  %f3 = mul i64 %f2, %y  %f4 = mul i64 %f3, %y  %f = mul i64 %f4, %y
  %r = add i64 %f, %f
  ret i64 %r
}

declare i8 @outside(i8)

define i8 @calls(i8 %x) {
  %y = call i8 @outside(i8 %x)
  %r = add i8 %y, %y
  ret i8 %r
}
