define i32 @local(i32 %x) {
  ret i32 %x
}

; An alignment of 2 is too much.
define void @stored(ptr %p) {
  store i16 1, ptr %p
  ret void
}

; Wrong where %p and %q are one address.
define i8 @loaded(ptr %p, ptr %q) {
  %x = load i8, ptr %p
  store i8 7, ptr %q
  ret i8 %x
}

define ptr @dead() {
  %a = alloca i16
  ret ptr %a
}
