define i8 @cancelled(i8 %x) {
  %zero = sub i8 %x, %x
  ret i8 %zero
}

define i8 @widened(i16 %x) {
  ret i8 0
}

define i8 @added() {
  ret i8 2
}
