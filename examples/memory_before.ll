; A local array: what was stored is loaded.
define i32 @local(i32 %x) {
  %a = alloca [2 x i32]
  %second = getelementptr [2 x i32], ptr %a, i64 0, i64 1
  store i32 %x, ptr %second
  %y = load i32, ptr %second
  ret i32 %y
}

; The store may be at any address that %p gives.
define void @stored(ptr %p) {
  store i16 1, ptr %p, align 1
  ret void
}

; The second load reads what the store left.
define i8 @loaded(ptr %p, ptr %q) {
  %x = load i8, ptr %p
  store i8 7, ptr %q
  %y = load i8, ptr %p
  ret i8 %y
}

; A pointer to a block that the run itself made is dead behind the return.
define ptr @dead() {
  %a = alloca i8
  ret ptr %a
}
