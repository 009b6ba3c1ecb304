define i4 @add_absorbed(i4 %x) {
  ret i4 0
}

define i4 @sub_absorbed(i4 %x) {
  ret i4 5
}

define i4 @subtrahend_absorbed(i4 %x) {
  ret i4 0
}

define i4 @subtrahend_of_number(i4 %x) {
  ret i4 5
}

define i4 @xor_absorbed(i4 %x) {
  ret i4 9
}

define i4 @factor_absorbed(i4 %x) {
  ret i4 0
}

define i4 @odd_factor(i4 %x) {
  ret i4 0
}

define i4 @added_twice(i4 %x, i4 %y) {
  ret i4 0
}

define i4 @pushed_through_add(i4 %x) {
  %r = freeze i4 poison
  ret i4 %r
}

define i4 @pushed_through_sub(i4 %x) {
  %r = freeze i4 poison
  ret i4 %r
}

define i4 @pushed_through_xor(i4 %x) {
  %r = freeze i4 poison
  ret i4 %r
}

define i4 @pushed_through_not(i4 %x) {
  %r = freeze i4 poison
  ret i4 %r
}

define i4 @pushed_through_number(i4 %x) {
  %r = freeze i4 poison
  ret i4 %r
}

define i4 @pushed_through_shl(i4 %x) {
  %a = freeze i4 poison
  %r = add i4 %a, %a
  ret i4 %r
}

define i4 @second_choice(i4 %x) {
  %r = freeze i4 poison
  ret i4 %r
}

define i4 @two_choices(i4 %x, i4 %y) {
  %r = freeze i4 poison
  ret i4 %r
}

define i4 @compared(i4 %x, i4 %y) {
  ret i4 %y
}

define i4 @compared_equal(i4 %x, i4 %y) {
  %s = freeze i4 %x
  ret i4 %x
}

define i4 @masked(i4 %x) {
  ret i4 %x
}

define i4 @or_with(i4 %x) {
  ret i4 -1
}

define i4 @undef_sum(i4 %x) {
  ret i4 undef
}

define i4 @undef_sum_frozen(i4 %x) {
  %r = freeze i4 poison
  ret i4 %r
}

define i4 @wrong_add_of_poison(i4 %x) {
  %r = add i4 %x, undef
  ret i4 %r
}

define i4 @wrong_even_sum(i4 %x) {
  ret i4 0
}
