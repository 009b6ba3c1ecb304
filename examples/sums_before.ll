; Sums before an optimisation.

define i8 @parts(i8 %x, i8 %y) {
  %both = and i8 %x, %y
  %either = or i8 %x, %y
  %sum = add i8 %both, %either
  ret i8 %sum
}

define i8 @cancelled(i8 %x) {
  %zero = sub i8 %x, %x
  ret i8 %zero
}

define i8 @joined(i8 %x, i8 %y) {
  %sum = add i8 %x, %y
  ret i8 %sum
}

define i16 @flipped(i16 %x) {
  %flipped = xor i16 %x, -1
  %next = add i16 %flipped, 1
  ret i16 %next
}

define i32 @wide(i32 %x) {
  %sum = add i32 %x, %x
  ret i32 %sum
}
