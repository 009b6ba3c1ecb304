define i8 @old(i8 %x) {
  %r = add i8 %x, 1
  ret i8 %r
}

define i8 @wide(i8 %x) {
  %r = add i8 %x, 2
  ret i8 %r
}
