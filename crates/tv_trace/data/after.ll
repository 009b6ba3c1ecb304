; What a pass might have made of it: it must not wrap.
define i8 @sum(i8 %x, i8 %y) {
entry:
  %s = add nuw i8 %y, %x
  ret i8 %s
}

define i8 @same(i8 %x) {
entry:
  ret i8 %x
}
