; The sum of 8 bits wraps.
define i8 @sum(i8 %x, i8 %y) {
entry:
  %s = add i8 %x, %y
  ret i8 %s
}

define i8 @same(i8 %x) {
entry:
  ret i8 %x
}
