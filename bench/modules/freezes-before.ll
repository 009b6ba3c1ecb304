define i4 @add_absorbed(i4 %x) {
  %a = freeze i4 poison
  %r = add i4 %a, %x
  ret i4 %r
}

define i4 @sub_absorbed(i4 %x) {
  %a = freeze i4 poison
  %r = sub i4 %a, %x
  ret i4 %r
}

define i4 @subtrahend_absorbed(i4 %x) {
  %a = freeze i4 poison
  %r = sub i4 %x, %a
  ret i4 %r
}

define i4 @subtrahend_of_number(i4 %x) {
  %a = freeze i4 poison
  %r = sub i4 %x, %a
  ret i4 %r
}

define i4 @xor_absorbed(i4 %x) {
  %a = freeze i4 poison
  %r = xor i4 %a, %x
  ret i4 %r
}

define i4 @factor_absorbed(i4 %x) {
  %a = freeze i4 poison
  %r = mul i4 %a, %x
  ret i4 %r
}

define i4 @odd_factor(i4 %x) {
  %a = freeze i4 poison
  %b = mul i4 %a, 3
  %r = add i4 %x, %b
  ret i4 %r
}

define i4 @added_twice(i4 %x, i4 %y) {
  %a = freeze i4 poison
  %b = add i4 %a, %x
  %r = add i4 %b, %y
  ret i4 %r
}

define i4 @pushed_through_add(i4 %x) {
  %a = freeze i4 poison
  %r = add i4 %a, %x
  ret i4 %r
}

define i4 @pushed_through_sub(i4 %x) {
  %a = freeze i4 poison
  %r = sub i4 %a, %x
  ret i4 %r
}

define i4 @pushed_through_xor(i4 %x) {
  %a = freeze i4 poison
  %r = xor i4 %a, %x
  ret i4 %r
}

define i4 @pushed_through_not(i4 %x) {
  %a = freeze i4 poison
  %r = xor i4 %a, -1
  ret i4 %r
}

define i4 @pushed_through_number(i4 %x) {
  %a = freeze i4 poison
  %r = add i4 %a, 3
  ret i4 %r
}

define i4 @pushed_through_shl(i4 %x) {
  %a = freeze i4 poison
  %r = shl i4 %a, 1
  ret i4 %r
}

define i4 @second_choice(i4 %x) {
  %u = freeze i4 poison
  %a = freeze i4 poison
  %r = add i4 %a, %x
  ret i4 %r
}

define i4 @two_choices(i4 %x, i4 %y) {
  %a = freeze i4 poison
  %b = freeze i4 poison
  %c = add i4 %a, %x
  %d = add i4 %b, %y
  %r = xor i4 %c, %d
  ret i4 %r
}

define i4 @compared(i4 %x, i4 %y) {
  %a = freeze i4 poison
  %c = icmp ult i4 %a, %x
  %r = select i1 %c, i4 %x, i4 %y
  ret i4 %r
}

define i4 @compared_equal(i4 %x, i4 %y) {
  %a = freeze i4 poison
  %c = icmp eq i4 %a, %x
  %r = select i1 %c, i4 %x, i4 %y
  ret i4 %r
}

define i4 @masked(i4 %x) {
  %a = freeze i4 poison
  %r = and i4 %a, %x
  ret i4 %r
}

define i4 @or_with(i4 %x) {
  %a = freeze i4 poison
  %r = or i4 %a, %x
  ret i4 %r
}

define i4 @undef_sum(i4 %x) {
  %r = add i4 %x, undef
  ret i4 %r
}

define i4 @undef_sum_frozen(i4 %x) {
  %s = add i4 %x, undef
  %r = freeze i4 %s
  ret i4 %r
}

define i4 @wrong_add_of_poison(i4 %x) {
  ret i4 undef
}

define i4 @wrong_even_sum(i4 %x) {
  %a = freeze i4 poison
  %b = shl i4 %a, 1
  %r = add i4 %b, %x
  ret i4 %r
}
