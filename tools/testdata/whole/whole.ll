; The fake tv refuses a module with this mark as a whole: ?
define i8 @good(i8 %x) {
  %r = add i8 %x, %x
  ret i8 %r
}
