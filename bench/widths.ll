; Functions with i1, i5, i24 and i48 in memory, for bench/pairs.py.

define i1 @flag_through_local(i1 %x) {
  %a = alloca i1
  store i1 %x, ptr %a
  %r = load i1, ptr %a
  ret i1 %r
}

define i5 @five_through_local(i5 %x, i5 %y) {
  %a = alloca i5
  %b = alloca i5
  store i5 %x, ptr %a
  store i5 %y, ptr %b
  %p = load i5, ptr %a
  %q = load i5, ptr %b
  %s = add i5 %p, %q
  %r = sub i5 %s, %q
  ret i5 %r
}

define i24 @third_of_four(i24 %x) {
  %a = alloca [3 x i24]
  %p = getelementptr [3 x i24], ptr %a, i64 0, i64 2
  store i24 %x, ptr %p
  %r = load i24, ptr %p
  %s = xor i24 %r, 0
  ret i24 %s
}

define i48 @wide_through_local(i48 %x) {
  %a = alloca i48
  store i48 %x, ptr %a
  %r = load i48, ptr %a
  %s = shl i48 %r, 1
  %t = add i48 %s, %s
  ret i48 %t
}

define void @flag_flipped(ptr %p) {
  %x = load i1, ptr %p
  %y = xor i1 %x, true
  %z = xor i1 %y, true
  store i1 %z, ptr %p
  ret void
}

define void @five_flipped(ptr %p) {
  %x = load i5, ptr %p
  %y = sub i5 0, %x
  %z = sub i5 0, %y
  store i5 %z, ptr %p
  ret void
}

define i24 @loaded_twice(ptr %p) {
  %x = load i24, ptr %p
  %y = load i24, ptr %p
  %r = sub i24 %x, %y
  ret i24 %r
}

define i48 @loaded_twice_wide(ptr %p) {
  %x = load i48, ptr %p
  %y = load i48, ptr %p
  %s = and i48 %x, %y
  %r = or i48 %s, %x
  ret i48 %r
}

define i1 @stored_then_loaded(ptr %p, i1 %x) {
  store i1 %x, ptr %p
  %y = load i1, ptr %p
  %r = and i1 %y, %x
  ret i1 %r
}

define i5 @stored_then_loaded_five(ptr %p, i5 %x) {
  store i5 %x, ptr %p
  %y = load i5, ptr %p
  %s = shl i5 %y, 1
  %r = lshr i5 %s, 1
  ret i5 %r
}

define i24 @stored_then_loaded_24(ptr %p, i24 %x) {
  store i24 %x, ptr %p
  %y = load i24, ptr %p
  %s = add i24 %y, 1
  %r = sub i24 %s, %x
  ret i24 %r
}

define i48 @stored_then_loaded_48(ptr %p, i48 %x) {
  store i48 %x, ptr %p
  %y = load i48, ptr %p
  %r = add i48 %y, %y
  ret i48 %r
}

define i24 @one_of_two(i1 %c, i24 %x, i24 %y) {
  %a = alloca i24
  br i1 %c, label %left, label %right
left:
  store i24 %x, ptr %a
  br label %end
right:
  store i24 %y, ptr %a
  br label %end
end:
  %r = load i24, ptr %a
  %s = mul i24 %r, 2
  ret i24 %s
}

define i5 @one_or_none(i1 %c, i5 %x) {
  %a = alloca i5
  br i1 %c, label %left, label %end
left:
  store i5 %x, ptr %a
  br label %end
end:
  %r = load i5, ptr %a
  ret i5 %r
}

define i1 @element_of_flags(i1 %x, i1 %y) {
  %a = alloca [4 x i1]
  %p = getelementptr [4 x i1], ptr %a, i64 0, i64 1
  %q = getelementptr [4 x i1], ptr %a, i64 0, i64 3
  store i1 %x, ptr %p
  store i1 %y, ptr %q
  %r = load i1, ptr %p
  %s = load i1, ptr %q
  %t = or i1 %r, %s
  %u = or i1 %t, %r
  ret i1 %u
}

define void @copied_five(ptr %p, ptr %q) {
  %x = load i5, ptr %p
  %a = alloca i5
  store i5 %x, ptr %a
  %y = load i5, ptr %a
  store i5 %y, ptr %q
  ret void
}

define i8 @five_in_a_byte(ptr %p) {
  %x = load i5, ptr %p
  %y = zext i5 %x to i8
  %r = and i8 %y, 31
  ret i8 %r
}

define i1 @low_bit(ptr %p) {
  %x = load i8, ptr %p
  %y = trunc i8 %x to i1
  %z = zext i1 %y to i8
  %r = trunc i8 %z to i1
  ret i1 %r
}

define i24 @stored_over(i24 %x, i24 %y) {
  %a = alloca i24
  store i24 %x, ptr %a
  store i24 %y, ptr %a
  %r = load i24, ptr %a
  ret i24 %r
}

define void @stored_over_given(ptr %p, i48 %x) {
  store i48 0, ptr %p
  store i48 %x, ptr %p
  ret void
}

define i5 @second_of_elements(ptr %p) {
  %q = getelementptr i5, ptr %p, i64 1
  %r = getelementptr i5, ptr %q, i64 1
  %x = load i5, ptr %r
  %y = mul i5 %x, 4
  ret i5 %y
}

define i24 @step_over_elements(ptr %p) {
  %q = getelementptr i24, ptr %p, i64 1
  %x = load i24, ptr %q
  %y = mul i24 %x, 8
  %z = udiv i24 %y, 2
  ret i24 %z
}
