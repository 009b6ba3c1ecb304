; Choices and poison, before an optimisation.

define i8 @narrowed() {
  ret i8 undef
}

define i8 @doubled(i8 %x) {
  %a = freeze i8 %x
  %r = sub i8 %a, %a
  ret i8 %r
}

define i8 @moved(i8 %x) {
  %s = add nsw i8 %x, 1
  %r = freeze i8 %s
  ret i8 %r
}

define i4 @dropped(i4 %x) {
  %s = add nsw i4 %x, 1
  %r = freeze i4 %s
  ret i4 %r
}
