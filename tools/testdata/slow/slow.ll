define i8 @slow(i8 %x) {
  %r = add i8 %x, %x
  ret i8 %r
}
