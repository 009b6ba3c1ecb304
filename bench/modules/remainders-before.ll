; Quotients and remainders beside their products; those named wrong_ are no refinements.

define i8 @quotient_taken_off_8(i8 %x, i8 %y) {
  %v1 = udiv i8 %x, %y
  %v2 = mul i8 %v1, %y
  %v3 = sub i8 %x, %v2
  ret i8 %v3
}

define i8 @quotient_taken_off_signed_8(i8 %x, i8 %y) {
  %v1 = sdiv i8 %x, %y
  %v2 = mul i8 %v1, %y
  %v3 = sub i8 %x, %v2
  ret i8 %v3
}

define i8 @remainder_expanded_8(i8 %x, i8 %y) {
  %v1 = urem i8 %x, %y
  ret i8 %v1
}

define i8 @both_parts_8(i8 %x, i8 %y) {
  %v1 = udiv i8 %x, %y
  %v2 = mul i8 %v1, %y
  %v3 = urem i8 %x, %y
  %v4 = add i8 %v2, %v3
  ret i8 %v4
}

define i8 @remainder_twice_8(i8 %x, i8 %n) {
  %v1 = urem i8 %x, %n
  %v2 = urem i8 %v1, %n
  ret i8 %v2
}

define i8 @remainder_twice_signed_8(i8 %x, i8 %n) {
  %v1 = srem i8 %x, %n
  %v2 = srem i8 %v1, %n
  ret i8 %v2
}

define i1 @below_divisor_8(i8 %x, i8 %y) {
  %v1 = urem i8 %x, %y
  %v2 = icmp ult i8 %v1, %y
  ret i1 %v2
}

define i1 @divisor_above_sum_8(i8 %x, i8 %y, i8 %z) {
  %v1 = add i8 %x, %z
  %v2 = urem i8 %v1, %y
  %v3 = icmp ule i8 %y, %v2
  ret i1 %v3
}

define i1 @remainder_not_above_8(i8 %x, i8 %y) {
  %v1 = urem i8 %x, %y
  %v2 = icmp ugt i8 %v1, %x
  ret i1 %v2
}

define i8 @remainder_taken_off_8(i8 %x, i8 %y) {
  %v1 = urem i8 %x, %y
  %v2 = sub i8 %x, %v1
  %v3 = udiv i8 %v2, %y
  ret i8 %v3
}

define i8 @decimal_digits_8(i8 %x) {
  %v1 = udiv i8 %x, 10
  %v2 = mul i8 %v1, 16
  %v3 = urem i8 %x, 10
  %v4 = add i8 %v2, %v3
  ret i8 %v4
}

define i8 @decimal_digits_signed_8(i8 %x) {
  %v1 = sdiv i8 %x, 10
  %v2 = mul i8 %v1, 16
  %v3 = srem i8 %x, 10
  %v4 = add i8 %v2, %v3
  ret i8 %v4
}

define i8 @parts_times_three_8(i8 %x) {
  %v1 = udiv i8 %x, 7
  %v2 = mul i8 %v1, 21
  %v3 = urem i8 %x, 7
  %v4 = mul i8 %v3, 3
  %v5 = add i8 %v2, %v4
  ret i8 %v5
}

define i8 @quotients_in_turn_8(i8 %x) {
  %v1 = udiv i8 %x, 5
  %v2 = udiv i8 %v1, 7
  ret i8 %v2
}

define i8 @remainders_in_turn_8(i8 %x) {
  %v1 = urem i8 %x, 30
  %v2 = urem i8 %v1, 10
  ret i8 %v2
}

define i8 @negated_divisor_8(i8 %x, i8 %y) {
  %v1 = lshr i8 %y, 1
  %v2 = sub i8 0, %v1
  %v3 = srem i8 %x, %v2
  ret i8 %v3
}

define i8 @negated_quotient_8(i8 %x, i8 %y) {
  %v1 = lshr i8 %y, 1
  %v2 = sub i8 0, %v1
  %v3 = sdiv i8 %x, %v2
  ret i8 %v3
}

define i8 @wrong_negated_divisor_8(i8 %x, i8 %y) {
  %v1 = sub i8 0, %y
  %v2 = srem i8 %x, %v1
  ret i8 %v2
}

define i1 @wrong_below_divisor_signed_8(i8 %x, i8 %y) {
  %v1 = srem i8 %x, %y
  %v2 = icmp slt i8 %v1, %y
  ret i1 %v2
}

define i8 @wrong_decimal_digits_8(i8 %x) {
  %v1 = udiv i8 %x, 10
  %v2 = mul i8 %v1, 16
  %v3 = urem i8 %x, 10
  %v4 = add i8 %v2, %v3
  ret i8 %v4
}

define i32 @quotient_taken_off_32(i32 %x, i32 %y) {
  %v1 = udiv i32 %x, %y
  %v2 = mul i32 %v1, %y
  %v3 = sub i32 %x, %v2
  ret i32 %v3
}

define i32 @quotient_taken_off_signed_32(i32 %x, i32 %y) {
  %v1 = sdiv i32 %x, %y
  %v2 = mul i32 %v1, %y
  %v3 = sub i32 %x, %v2
  ret i32 %v3
}

define i32 @remainder_expanded_32(i32 %x, i32 %y) {
  %v1 = urem i32 %x, %y
  ret i32 %v1
}

define i32 @both_parts_32(i32 %x, i32 %y) {
  %v1 = udiv i32 %x, %y
  %v2 = mul i32 %v1, %y
  %v3 = urem i32 %x, %y
  %v4 = add i32 %v2, %v3
  ret i32 %v4
}

define i32 @remainder_twice_32(i32 %x, i32 %n) {
  %v1 = urem i32 %x, %n
  %v2 = urem i32 %v1, %n
  ret i32 %v2
}

define i32 @remainder_twice_signed_32(i32 %x, i32 %n) {
  %v1 = srem i32 %x, %n
  %v2 = srem i32 %v1, %n
  ret i32 %v2
}

define i1 @below_divisor_32(i32 %x, i32 %y) {
  %v1 = urem i32 %x, %y
  %v2 = icmp ult i32 %v1, %y
  ret i1 %v2
}

define i1 @divisor_above_sum_32(i32 %x, i32 %y, i32 %z) {
  %v1 = add i32 %x, %z
  %v2 = urem i32 %v1, %y
  %v3 = icmp ule i32 %y, %v2
  ret i1 %v3
}

define i1 @remainder_not_above_32(i32 %x, i32 %y) {
  %v1 = urem i32 %x, %y
  %v2 = icmp ugt i32 %v1, %x
  ret i1 %v2
}

define i32 @remainder_taken_off_32(i32 %x, i32 %y) {
  %v1 = urem i32 %x, %y
  %v2 = sub i32 %x, %v1
  %v3 = udiv i32 %v2, %y
  ret i32 %v3
}

define i32 @decimal_digits_32(i32 %x) {
  %v1 = udiv i32 %x, 10
  %v2 = mul i32 %v1, 16
  %v3 = urem i32 %x, 10
  %v4 = add i32 %v2, %v3
  ret i32 %v4
}

define i32 @decimal_digits_signed_32(i32 %x) {
  %v1 = sdiv i32 %x, 10
  %v2 = mul i32 %v1, 16
  %v3 = srem i32 %x, 10
  %v4 = add i32 %v2, %v3
  ret i32 %v4
}

define i32 @parts_times_three_32(i32 %x) {
  %v1 = udiv i32 %x, 7
  %v2 = mul i32 %v1, 21
  %v3 = urem i32 %x, 7
  %v4 = mul i32 %v3, 3
  %v5 = add i32 %v2, %v4
  ret i32 %v5
}

define i32 @quotients_in_turn_32(i32 %x) {
  %v1 = udiv i32 %x, 5
  %v2 = udiv i32 %v1, 7
  ret i32 %v2
}

define i32 @remainders_in_turn_32(i32 %x) {
  %v1 = urem i32 %x, 30
  %v2 = urem i32 %v1, 10
  ret i32 %v2
}

define i32 @negated_divisor_32(i32 %x, i32 %y) {
  %v1 = lshr i32 %y, 1
  %v2 = sub i32 0, %v1
  %v3 = srem i32 %x, %v2
  ret i32 %v3
}

define i32 @negated_quotient_32(i32 %x, i32 %y) {
  %v1 = lshr i32 %y, 1
  %v2 = sub i32 0, %v1
  %v3 = sdiv i32 %x, %v2
  ret i32 %v3
}

define i32 @wrong_negated_divisor_32(i32 %x, i32 %y) {
  %v1 = sub i32 0, %y
  %v2 = srem i32 %x, %v1
  ret i32 %v2
}

define i1 @wrong_below_divisor_signed_32(i32 %x, i32 %y) {
  %v1 = srem i32 %x, %y
  %v2 = icmp slt i32 %v1, %y
  ret i1 %v2
}

define i32 @wrong_decimal_digits_32(i32 %x) {
  %v1 = udiv i32 %x, 10
  %v2 = mul i32 %v1, 16
  %v3 = urem i32 %x, 10
  %v4 = add i32 %v2, %v3
  ret i32 %v4
}

define i64 @quotient_taken_off_64(i64 %x, i64 %y) {
  %v1 = udiv i64 %x, %y
  %v2 = mul i64 %v1, %y
  %v3 = sub i64 %x, %v2
  ret i64 %v3
}

define i64 @quotient_taken_off_signed_64(i64 %x, i64 %y) {
  %v1 = sdiv i64 %x, %y
  %v2 = mul i64 %v1, %y
  %v3 = sub i64 %x, %v2
  ret i64 %v3
}

define i64 @remainder_expanded_64(i64 %x, i64 %y) {
  %v1 = urem i64 %x, %y
  ret i64 %v1
}

define i64 @both_parts_64(i64 %x, i64 %y) {
  %v1 = udiv i64 %x, %y
  %v2 = mul i64 %v1, %y
  %v3 = urem i64 %x, %y
  %v4 = add i64 %v2, %v3
  ret i64 %v4
}

define i64 @remainder_twice_64(i64 %x, i64 %n) {
  %v1 = urem i64 %x, %n
  %v2 = urem i64 %v1, %n
  ret i64 %v2
}

define i64 @remainder_twice_signed_64(i64 %x, i64 %n) {
  %v1 = srem i64 %x, %n
  %v2 = srem i64 %v1, %n
  ret i64 %v2
}

define i1 @below_divisor_64(i64 %x, i64 %y) {
  %v1 = urem i64 %x, %y
  %v2 = icmp ult i64 %v1, %y
  ret i1 %v2
}

define i1 @divisor_above_sum_64(i64 %x, i64 %y, i64 %z) {
  %v1 = add i64 %x, %z
  %v2 = urem i64 %v1, %y
  %v3 = icmp ule i64 %y, %v2
  ret i1 %v3
}

define i1 @remainder_not_above_64(i64 %x, i64 %y) {
  %v1 = urem i64 %x, %y
  %v2 = icmp ugt i64 %v1, %x
  ret i1 %v2
}

define i64 @remainder_taken_off_64(i64 %x, i64 %y) {
  %v1 = urem i64 %x, %y
  %v2 = sub i64 %x, %v1
  %v3 = udiv i64 %v2, %y
  ret i64 %v3
}

define i64 @decimal_digits_64(i64 %x) {
  %v1 = udiv i64 %x, 10
  %v2 = mul i64 %v1, 16
  %v3 = urem i64 %x, 10
  %v4 = add i64 %v2, %v3
  ret i64 %v4
}

define i64 @decimal_digits_signed_64(i64 %x) {
  %v1 = sdiv i64 %x, 10
  %v2 = mul i64 %v1, 16
  %v3 = srem i64 %x, 10
  %v4 = add i64 %v2, %v3
  ret i64 %v4
}

define i64 @parts_times_three_64(i64 %x) {
  %v1 = udiv i64 %x, 7
  %v2 = mul i64 %v1, 21
  %v3 = urem i64 %x, 7
  %v4 = mul i64 %v3, 3
  %v5 = add i64 %v2, %v4
  ret i64 %v5
}

define i64 @quotients_in_turn_64(i64 %x) {
  %v1 = udiv i64 %x, 5
  %v2 = udiv i64 %v1, 7
  ret i64 %v2
}

define i64 @remainders_in_turn_64(i64 %x) {
  %v1 = urem i64 %x, 30
  %v2 = urem i64 %v1, 10
  ret i64 %v2
}

define i64 @negated_divisor_64(i64 %x, i64 %y) {
  %v1 = lshr i64 %y, 1
  %v2 = sub i64 0, %v1
  %v3 = srem i64 %x, %v2
  ret i64 %v3
}

define i64 @negated_quotient_64(i64 %x, i64 %y) {
  %v1 = lshr i64 %y, 1
  %v2 = sub i64 0, %v1
  %v3 = sdiv i64 %x, %v2
  ret i64 %v3
}

define i64 @wrong_negated_divisor_64(i64 %x, i64 %y) {
  %v1 = sub i64 0, %y
  %v2 = srem i64 %x, %v1
  ret i64 %v2
}

define i1 @wrong_below_divisor_signed_64(i64 %x, i64 %y) {
  %v1 = srem i64 %x, %y
  %v2 = icmp slt i64 %v1, %y
  ret i1 %v2
}

define i64 @wrong_decimal_digits_64(i64 %x) {
  %v1 = udiv i64 %x, 10
  %v2 = mul i64 %v1, 16
  %v3 = urem i64 %x, 10
  %v4 = add i64 %v2, %v3
  ret i64 %v4
}

define i8 @quotient_widened_8_16(i8 %x, i8 %y) {
  %v1 = zext i8 %x to i16
  %v2 = zext i8 %y to i16
  %v3 = udiv i16 %v1, %v2
  %v4 = trunc i16 %v3 to i8
  ret i8 %v4
}

define i16 @remainder_widened_8_16(i8 %x, i8 %y) {
  %v1 = zext i8 %x to i16
  %v2 = zext i8 %y to i16
  %v3 = urem i16 %v1, %v2
  ret i16 %v3
}

define i8 @wrong_quotient_widened_signed_8_16(i8 %x, i8 %y) {
  %v1 = sext i8 %x to i16
  %v2 = sext i8 %y to i16
  %v3 = sdiv i16 %v1, %v2
  %v4 = trunc i16 %v3 to i8
  ret i8 %v4
}

define i8 @quotient_widened_8_32(i8 %x, i8 %y) {
  %v1 = zext i8 %x to i32
  %v2 = zext i8 %y to i32
  %v3 = udiv i32 %v1, %v2
  %v4 = trunc i32 %v3 to i8
  ret i8 %v4
}

define i32 @remainder_widened_8_32(i8 %x, i8 %y) {
  %v1 = zext i8 %x to i32
  %v2 = zext i8 %y to i32
  %v3 = urem i32 %v1, %v2
  ret i32 %v3
}

define i8 @wrong_quotient_widened_signed_8_32(i8 %x, i8 %y) {
  %v1 = sext i8 %x to i32
  %v2 = sext i8 %y to i32
  %v3 = sdiv i32 %v1, %v2
  %v4 = trunc i32 %v3 to i8
  ret i8 %v4
}

define i16 @quotient_widened_16_64(i16 %x, i16 %y) {
  %v1 = zext i16 %x to i64
  %v2 = zext i16 %y to i64
  %v3 = udiv i64 %v1, %v2
  %v4 = trunc i64 %v3 to i16
  ret i16 %v4
}

define i64 @remainder_widened_16_64(i16 %x, i16 %y) {
  %v1 = zext i16 %x to i64
  %v2 = zext i16 %y to i64
  %v3 = urem i64 %v1, %v2
  ret i64 %v3
}

define i16 @wrong_quotient_widened_signed_16_64(i16 %x, i16 %y) {
  %v1 = sext i16 %x to i64
  %v2 = sext i16 %y to i64
  %v3 = sdiv i64 %v1, %v2
  %v4 = trunc i64 %v3 to i16
  ret i16 %v4
}

define i32 @quotient_widened_32_64(i32 %x, i32 %y) {
  %v1 = zext i32 %x to i64
  %v2 = zext i32 %y to i64
  %v3 = udiv i64 %v1, %v2
  %v4 = trunc i64 %v3 to i32
  ret i32 %v4
}

define i64 @remainder_widened_32_64(i32 %x, i32 %y) {
  %v1 = zext i32 %x to i64
  %v2 = zext i32 %y to i64
  %v3 = urem i64 %v1, %v2
  ret i64 %v3
}

define i32 @wrong_quotient_widened_signed_32_64(i32 %x, i32 %y) {
  %v1 = sext i32 %x to i64
  %v2 = sext i32 %y to i64
  %v3 = sdiv i64 %v1, %v2
  %v4 = trunc i64 %v3 to i32
  ret i32 %v4
}
