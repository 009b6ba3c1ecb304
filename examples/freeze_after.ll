; The same functions after it. `doubled` freezes one poison twice, and `moved` keeps `nsw`.

define i8 @narrowed() {
  %a = freeze i8 undef
  %r = and i8 %a, 1
  ret i8 %r
}

define i8 @doubled(i8 %x) {
  %a = freeze i8 %x
  %b = freeze i8 %x
  %r = sub i8 %a, %b
  ret i8 %r
}

define i8 @moved(i8 %x) {
  %a = freeze i8 %x
  %r = add nsw i8 %a, 1
  ret i8 %r
}

define i4 @dropped(i4 %x) {
  %a = freeze i4 %x
  %r = add i4 %a, 1
  ret i4 %r
}
