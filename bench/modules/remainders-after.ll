; Quotients and remainders beside their products; those named wrong_ are no refinements.

define i8 @quotient_taken_off_8(i8 %x, i8 %y) {
  %v1 = urem i8 %x, %y
  ret i8 %v1
}

define i8 @quotient_taken_off_signed_8(i8 %x, i8 %y) {
  %v1 = srem i8 %x, %y
  ret i8 %v1
}

define i8 @remainder_expanded_8(i8 %x, i8 %y) {
  %v1 = udiv i8 %x, %y
  %v2 = mul i8 %y, %v1
  %v3 = sub i8 %x, %v2
  ret i8 %v3
}

define i8 @both_parts_8(i8 %x, i8 %y) {
  ret i8 %x
}

define i8 @remainder_twice_8(i8 %x, i8 %n) {
  %v1 = urem i8 %x, %n
  ret i8 %v1
}

define i8 @remainder_twice_signed_8(i8 %x, i8 %n) {
  %v1 = srem i8 %x, %n
  ret i8 %v1
}

define i1 @below_divisor_8(i8 %x, i8 %y) {
  ret i1 1
}

define i1 @divisor_above_sum_8(i8 %x, i8 %y, i8 %z) {
  ret i1 0
}

define i1 @remainder_not_above_8(i8 %x, i8 %y) {
  ret i1 0
}

define i8 @remainder_taken_off_8(i8 %x, i8 %y) {
  %v1 = udiv i8 %x, %y
  ret i8 %v1
}

define i8 @decimal_digits_8(i8 %x) {
  %v1 = udiv i8 %x, 10
  %v2 = mul i8 %v1, 6
  %v3 = add i8 %x, %v2
  ret i8 %v3
}

define i8 @decimal_digits_signed_8(i8 %x) {
  %v1 = sdiv i8 %x, 10
  %v2 = mul i8 %v1, 6
  %v3 = add i8 %x, %v2
  ret i8 %v3
}

define i8 @parts_times_three_8(i8 %x) {
  %v1 = mul i8 %x, 3
  ret i8 %v1
}

define i8 @quotients_in_turn_8(i8 %x) {
  %v1 = udiv i8 %x, 35
  ret i8 %v1
}

define i8 @remainders_in_turn_8(i8 %x) {
  %v1 = urem i8 %x, 10
  ret i8 %v1
}

define i8 @negated_divisor_8(i8 %x, i8 %y) {
  %v1 = lshr i8 %y, 1
  %v2 = srem i8 %x, %v1
  ret i8 %v2
}

define i8 @negated_quotient_8(i8 %x, i8 %y) {
  %v1 = lshr i8 %y, 1
  %v2 = sdiv i8 %x, %v1
  %v3 = sub i8 0, %v2
  ret i8 %v3
}

define i8 @wrong_negated_divisor_8(i8 %x, i8 %y) {
  %v1 = srem i8 %x, %y
  ret i8 %v1
}

define i1 @wrong_below_divisor_signed_8(i8 %x, i8 %y) {
  ret i1 1
}

define i8 @wrong_decimal_digits_8(i8 %x) {
  %v1 = udiv i8 %x, 10
  %v2 = mul i8 %v1, 5
  %v3 = add i8 %x, %v2
  ret i8 %v3
}

define i32 @quotient_taken_off_32(i32 %x, i32 %y) {
  %v1 = urem i32 %x, %y
  ret i32 %v1
}

define i32 @quotient_taken_off_signed_32(i32 %x, i32 %y) {
  %v1 = srem i32 %x, %y
  ret i32 %v1
}

define i32 @remainder_expanded_32(i32 %x, i32 %y) {
  %v1 = udiv i32 %x, %y
  %v2 = mul i32 %y, %v1
  %v3 = sub i32 %x, %v2
  ret i32 %v3
}

define i32 @both_parts_32(i32 %x, i32 %y) {
  ret i32 %x
}

define i32 @remainder_twice_32(i32 %x, i32 %n) {
  %v1 = urem i32 %x, %n
  ret i32 %v1
}

define i32 @remainder_twice_signed_32(i32 %x, i32 %n) {
  %v1 = srem i32 %x, %n
  ret i32 %v1
}

define i1 @below_divisor_32(i32 %x, i32 %y) {
  ret i1 1
}

define i1 @divisor_above_sum_32(i32 %x, i32 %y, i32 %z) {
  ret i1 0
}

define i1 @remainder_not_above_32(i32 %x, i32 %y) {
  ret i1 0
}

define i32 @remainder_taken_off_32(i32 %x, i32 %y) {
  %v1 = udiv i32 %x, %y
  ret i32 %v1
}

define i32 @decimal_digits_32(i32 %x) {
  %v1 = udiv i32 %x, 10
  %v2 = mul i32 %v1, 6
  %v3 = add i32 %x, %v2
  ret i32 %v3
}

define i32 @decimal_digits_signed_32(i32 %x) {
  %v1 = sdiv i32 %x, 10
  %v2 = mul i32 %v1, 6
  %v3 = add i32 %x, %v2
  ret i32 %v3
}

define i32 @parts_times_three_32(i32 %x) {
  %v1 = mul i32 %x, 3
  ret i32 %v1
}

define i32 @quotients_in_turn_32(i32 %x) {
  %v1 = udiv i32 %x, 35
  ret i32 %v1
}

define i32 @remainders_in_turn_32(i32 %x) {
  %v1 = urem i32 %x, 10
  ret i32 %v1
}

define i32 @negated_divisor_32(i32 %x, i32 %y) {
  %v1 = lshr i32 %y, 1
  %v2 = srem i32 %x, %v1
  ret i32 %v2
}

define i32 @negated_quotient_32(i32 %x, i32 %y) {
  %v1 = lshr i32 %y, 1
  %v2 = sdiv i32 %x, %v1
  %v3 = sub i32 0, %v2
  ret i32 %v3
}

define i32 @wrong_negated_divisor_32(i32 %x, i32 %y) {
  %v1 = srem i32 %x, %y
  ret i32 %v1
}

define i1 @wrong_below_divisor_signed_32(i32 %x, i32 %y) {
  ret i1 1
}

define i32 @wrong_decimal_digits_32(i32 %x) {
  %v1 = udiv i32 %x, 10
  %v2 = mul i32 %v1, 5
  %v3 = add i32 %x, %v2
  ret i32 %v3
}

define i64 @quotient_taken_off_64(i64 %x, i64 %y) {
  %v1 = urem i64 %x, %y
  ret i64 %v1
}

define i64 @quotient_taken_off_signed_64(i64 %x, i64 %y) {
  %v1 = srem i64 %x, %y
  ret i64 %v1
}

define i64 @remainder_expanded_64(i64 %x, i64 %y) {
  %v1 = udiv i64 %x, %y
  %v2 = mul i64 %y, %v1
  %v3 = sub i64 %x, %v2
  ret i64 %v3
}

define i64 @both_parts_64(i64 %x, i64 %y) {
  ret i64 %x
}

define i64 @remainder_twice_64(i64 %x, i64 %n) {
  %v1 = urem i64 %x, %n
  ret i64 %v1
}

define i64 @remainder_twice_signed_64(i64 %x, i64 %n) {
  %v1 = srem i64 %x, %n
  ret i64 %v1
}

define i1 @below_divisor_64(i64 %x, i64 %y) {
  ret i1 1
}

define i1 @divisor_above_sum_64(i64 %x, i64 %y, i64 %z) {
  ret i1 0
}

define i1 @remainder_not_above_64(i64 %x, i64 %y) {
  ret i1 0
}

define i64 @remainder_taken_off_64(i64 %x, i64 %y) {
  %v1 = udiv i64 %x, %y
  ret i64 %v1
}

define i64 @decimal_digits_64(i64 %x) {
  %v1 = udiv i64 %x, 10
  %v2 = mul i64 %v1, 6
  %v3 = add i64 %x, %v2
  ret i64 %v3
}

define i64 @decimal_digits_signed_64(i64 %x) {
  %v1 = sdiv i64 %x, 10
  %v2 = mul i64 %v1, 6
  %v3 = add i64 %x, %v2
  ret i64 %v3
}

define i64 @parts_times_three_64(i64 %x) {
  %v1 = mul i64 %x, 3
  ret i64 %v1
}

define i64 @quotients_in_turn_64(i64 %x) {
  %v1 = udiv i64 %x, 35
  ret i64 %v1
}

define i64 @remainders_in_turn_64(i64 %x) {
  %v1 = urem i64 %x, 10
  ret i64 %v1
}

define i64 @negated_divisor_64(i64 %x, i64 %y) {
  %v1 = lshr i64 %y, 1
  %v2 = srem i64 %x, %v1
  ret i64 %v2
}

define i64 @negated_quotient_64(i64 %x, i64 %y) {
  %v1 = lshr i64 %y, 1
  %v2 = sdiv i64 %x, %v1
  %v3 = sub i64 0, %v2
  ret i64 %v3
}

define i64 @wrong_negated_divisor_64(i64 %x, i64 %y) {
  %v1 = srem i64 %x, %y
  ret i64 %v1
}

define i1 @wrong_below_divisor_signed_64(i64 %x, i64 %y) {
  ret i1 1
}

define i64 @wrong_decimal_digits_64(i64 %x) {
  %v1 = udiv i64 %x, 10
  %v2 = mul i64 %v1, 5
  %v3 = add i64 %x, %v2
  ret i64 %v3
}

define i8 @quotient_widened_8_16(i8 %x, i8 %y) {
  %v1 = udiv i8 %x, %y
  ret i8 %v1
}

define i16 @remainder_widened_8_16(i8 %x, i8 %y) {
  %v1 = urem i8 %x, %y
  %v2 = zext i8 %v1 to i16
  ret i16 %v2
}

define i8 @wrong_quotient_widened_signed_8_16(i8 %x, i8 %y) {
  %v1 = sdiv i8 %x, %y
  ret i8 %v1
}

define i8 @quotient_widened_8_32(i8 %x, i8 %y) {
  %v1 = udiv i8 %x, %y
  ret i8 %v1
}

define i32 @remainder_widened_8_32(i8 %x, i8 %y) {
  %v1 = urem i8 %x, %y
  %v2 = zext i8 %v1 to i32
  ret i32 %v2
}

define i8 @wrong_quotient_widened_signed_8_32(i8 %x, i8 %y) {
  %v1 = sdiv i8 %x, %y
  ret i8 %v1
}

define i16 @quotient_widened_16_64(i16 %x, i16 %y) {
  %v1 = udiv i16 %x, %y
  ret i16 %v1
}

define i64 @remainder_widened_16_64(i16 %x, i16 %y) {
  %v1 = urem i16 %x, %y
  %v2 = zext i16 %v1 to i64
  ret i64 %v2
}

define i16 @wrong_quotient_widened_signed_16_64(i16 %x, i16 %y) {
  %v1 = sdiv i16 %x, %y
  ret i16 %v1
}

define i32 @quotient_widened_32_64(i32 %x, i32 %y) {
  %v1 = udiv i32 %x, %y
  ret i32 %v1
}

define i64 @remainder_widened_32_64(i32 %x, i32 %y) {
  %v1 = urem i32 %x, %y
  %v2 = zext i32 %v1 to i64
  ret i64 %v2
}

define i32 @wrong_quotient_widened_signed_32_64(i32 %x, i32 %y) {
  %v1 = sdiv i32 %x, %y
  ret i32 %v1
}
