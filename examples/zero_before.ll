; The way back: 0 becomes a difference, which is poison where the argument is.

define i8 @cancelled(i8 %x) {
  ret i8 0
}

define i8 @dropped() {
  ret i8 1
}

define i8 @widened(i8 %x) {
  ret i8 %x
}
