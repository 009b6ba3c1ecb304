; The same functions after it. `joined` is wrong: bits that both have are lost.

define i8 @parts(i8 %x, i8 %y) {
  %sum = add i8 %x, %y
  ret i8 %sum
}

define i8 @cancelled(i8 %x) {
  ret i8 0
}

define i8 @joined(i8 %x, i8 %y) {
  %sum = or i8 %x, %y
  ret i8 %sum
}

define i16 @flipped(i16 %x) {
  %next = sub i16 0, %x
  ret i16 %next
}

define i32 @wide(i32 %x) {
  %sum = add i32 %x, %x
  ret i32 %sum
}
