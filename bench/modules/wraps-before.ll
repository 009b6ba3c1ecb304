; What holds where no product, sum or shift wraps, or a division is exact; those named wrong_ are no refinements.

define i8 @remainder_of_product_8(i8 %x, i8 %y) {
  %v1 = mul nuw i8 %x, %y
  %v2 = urem i8 %v1, %y
  ret i8 %v2
}

define i8 @remainder_of_product_signed_8(i8 %x, i8 %y) {
  %v1 = mul nsw i8 %x, %y
  %v2 = srem i8 %v1, %y
  ret i8 %v2
}

define i8 @remainder_of_shift_8(i8 %x, i8 %y) {
  %v1 = shl nuw i8 %x, %y
  %v2 = urem i8 %v1, %x
  ret i8 %v2
}

define i8 @quotient_of_product_8(i8 %x, i8 %y) {
  %v1 = mul nuw i8 %x, %y
  %v2 = udiv i8 %v1, %y
  ret i8 %v2
}

define i8 @quotient_of_product_signed_8(i8 %x, i8 %y) {
  %v1 = mul nsw i8 %x, %y
  %v2 = sdiv i8 %v1, %y
  ret i8 %v2
}

define i8 @quotient_of_shift_8(i8 %x, i8 %y) {
  %v1 = shl nuw i8 %x, %y
  %v2 = udiv i8 %v1, %x
  ret i8 %v2
}

define i8 @remainder_of_sum_8(i8 %x, i8 %y, i8 %z) {
  %v1 = mul nuw i8 %x, %y
  %v2 = add nuw i8 %v1, %z
  %v3 = urem i8 %v2, %y
  ret i8 %v3
}

define i8 @quotient_of_24_times_8(i8 %x) {
  %v1 = mul nuw i8 %x, 24
  %v2 = udiv i8 %v1, 8
  ret i8 %v2
}

define i1 @exact_quotients_below_8(i8 %x, i8 %y) {
  %v1 = udiv exact i8 %x, 10
  %v2 = udiv exact i8 %y, 10
  %v3 = icmp ult i8 %v1, %v2
  ret i1 %v3
}

define i1 @exact_quotients_equal_8(i8 %x, i8 %y) {
  %v1 = udiv exact i8 %x, 7
  %v2 = udiv exact i8 %y, 7
  %v3 = icmp eq i8 %v1, %v2
  ret i1 %v3
}

define i1 @exact_quotients_below_signed_8(i8 %x, i8 %y) {
  %v1 = sdiv exact i8 %x, 24
  %v2 = sdiv exact i8 %y, 24
  %v3 = icmp slt i8 %v1, %v2
  ret i1 %v3
}

define i1 @products_below_8(i8 %x, i8 %y) {
  %v1 = mul nuw i8 %x, 47
  %v2 = mul nuw i8 %y, 47
  %v3 = icmp ugt i8 %v1, %v2
  ret i1 %v3
}

define i8 @shift_of_sum_8(i8 %x, i8 %y, i8 %z) {
  %v1 = add i8 %x, %y
  %v2 = shl i8 %v1, %z
  ret i8 %v2
}

define i8 @shift_of_sum_nuw_8(i8 %x, i8 %y, i8 %z) {
  %v1 = add nuw i8 %x, %y
  %v2 = shl nuw i8 %v1, %z
  ret i8 %v2
}

define i8 @shift_taken_back_8(i8 %x, i8 %y, i8 %z) {
  %v1 = shl nuw i8 %x, %z
  %v2 = shl nuw i8 %y, %z
  %v3 = add nuw i8 %v1, %v2
  %v4 = lshr i8 %v3, %z
  ret i8 %v4
}

define i8 @wrong_remainder_of_product_8(i8 %x, i8 %y) {
  %v1 = mul i8 %x, %y
  %v2 = urem i8 %v1, %y
  ret i8 %v2
}

define i1 @wrong_quotients_below_8(i8 %x, i8 %y) {
  %v1 = udiv i8 %x, 10
  %v2 = udiv i8 %y, 10
  %v3 = icmp ult i8 %v1, %v2
  ret i1 %v3
}

define i8 @wrong_shift_of_sum_8(i8 %x, i8 %y, i8 %z) {
  %v1 = add i8 %x, %y
  %v2 = shl nuw i8 %v1, %z
  ret i8 %v2
}

define i32 @remainder_of_product_32(i32 %x, i32 %y) {
  %v1 = mul nuw i32 %x, %y
  %v2 = urem i32 %v1, %y
  ret i32 %v2
}

define i32 @remainder_of_product_signed_32(i32 %x, i32 %y) {
  %v1 = mul nsw i32 %x, %y
  %v2 = srem i32 %v1, %y
  ret i32 %v2
}

define i32 @remainder_of_shift_32(i32 %x, i32 %y) {
  %v1 = shl nuw i32 %x, %y
  %v2 = urem i32 %v1, %x
  ret i32 %v2
}

define i32 @quotient_of_product_32(i32 %x, i32 %y) {
  %v1 = mul nuw i32 %x, %y
  %v2 = udiv i32 %v1, %y
  ret i32 %v2
}

define i32 @quotient_of_product_signed_32(i32 %x, i32 %y) {
  %v1 = mul nsw i32 %x, %y
  %v2 = sdiv i32 %v1, %y
  ret i32 %v2
}

define i32 @quotient_of_shift_32(i32 %x, i32 %y) {
  %v1 = shl nuw i32 %x, %y
  %v2 = udiv i32 %v1, %x
  ret i32 %v2
}

define i32 @remainder_of_sum_32(i32 %x, i32 %y, i32 %z) {
  %v1 = mul nuw i32 %x, %y
  %v2 = add nuw i32 %v1, %z
  %v3 = urem i32 %v2, %y
  ret i32 %v3
}

define i32 @quotient_of_24_times_32(i32 %x) {
  %v1 = mul nuw i32 %x, 24
  %v2 = udiv i32 %v1, 8
  ret i32 %v2
}

define i1 @exact_quotients_below_32(i32 %x, i32 %y) {
  %v1 = udiv exact i32 %x, 10
  %v2 = udiv exact i32 %y, 10
  %v3 = icmp ult i32 %v1, %v2
  ret i1 %v3
}

define i1 @exact_quotients_equal_32(i32 %x, i32 %y) {
  %v1 = udiv exact i32 %x, 7
  %v2 = udiv exact i32 %y, 7
  %v3 = icmp eq i32 %v1, %v2
  ret i1 %v3
}

define i1 @exact_quotients_below_signed_32(i32 %x, i32 %y) {
  %v1 = sdiv exact i32 %x, 24
  %v2 = sdiv exact i32 %y, 24
  %v3 = icmp slt i32 %v1, %v2
  ret i1 %v3
}

define i1 @products_below_32(i32 %x, i32 %y) {
  %v1 = mul nuw i32 %x, 47
  %v2 = mul nuw i32 %y, 47
  %v3 = icmp ugt i32 %v1, %v2
  ret i1 %v3
}

define i32 @shift_of_sum_32(i32 %x, i32 %y, i32 %z) {
  %v1 = add i32 %x, %y
  %v2 = shl i32 %v1, %z
  ret i32 %v2
}

define i32 @shift_of_sum_nuw_32(i32 %x, i32 %y, i32 %z) {
  %v1 = add nuw i32 %x, %y
  %v2 = shl nuw i32 %v1, %z
  ret i32 %v2
}

define i32 @shift_taken_back_32(i32 %x, i32 %y, i32 %z) {
  %v1 = shl nuw i32 %x, %z
  %v2 = shl nuw i32 %y, %z
  %v3 = add nuw i32 %v1, %v2
  %v4 = lshr i32 %v3, %z
  ret i32 %v4
}

define i32 @wrong_remainder_of_product_32(i32 %x, i32 %y) {
  %v1 = mul i32 %x, %y
  %v2 = urem i32 %v1, %y
  ret i32 %v2
}

define i1 @wrong_quotients_below_32(i32 %x, i32 %y) {
  %v1 = udiv i32 %x, 10
  %v2 = udiv i32 %y, 10
  %v3 = icmp ult i32 %v1, %v2
  ret i1 %v3
}

define i32 @wrong_shift_of_sum_32(i32 %x, i32 %y, i32 %z) {
  %v1 = add i32 %x, %y
  %v2 = shl nuw i32 %v1, %z
  ret i32 %v2
}

define i64 @remainder_of_product_64(i64 %x, i64 %y) {
  %v1 = mul nuw i64 %x, %y
  %v2 = urem i64 %v1, %y
  ret i64 %v2
}

define i64 @remainder_of_product_signed_64(i64 %x, i64 %y) {
  %v1 = mul nsw i64 %x, %y
  %v2 = srem i64 %v1, %y
  ret i64 %v2
}

define i64 @remainder_of_shift_64(i64 %x, i64 %y) {
  %v1 = shl nuw i64 %x, %y
  %v2 = urem i64 %v1, %x
  ret i64 %v2
}

define i64 @quotient_of_product_64(i64 %x, i64 %y) {
  %v1 = mul nuw i64 %x, %y
  %v2 = udiv i64 %v1, %y
  ret i64 %v2
}

define i64 @quotient_of_product_signed_64(i64 %x, i64 %y) {
  %v1 = mul nsw i64 %x, %y
  %v2 = sdiv i64 %v1, %y
  ret i64 %v2
}

define i64 @quotient_of_shift_64(i64 %x, i64 %y) {
  %v1 = shl nuw i64 %x, %y
  %v2 = udiv i64 %v1, %x
  ret i64 %v2
}

define i64 @remainder_of_sum_64(i64 %x, i64 %y, i64 %z) {
  %v1 = mul nuw i64 %x, %y
  %v2 = add nuw i64 %v1, %z
  %v3 = urem i64 %v2, %y
  ret i64 %v3
}

define i64 @quotient_of_24_times_64(i64 %x) {
  %v1 = mul nuw i64 %x, 24
  %v2 = udiv i64 %v1, 8
  ret i64 %v2
}

define i1 @exact_quotients_below_64(i64 %x, i64 %y) {
  %v1 = udiv exact i64 %x, 10
  %v2 = udiv exact i64 %y, 10
  %v3 = icmp ult i64 %v1, %v2
  ret i1 %v3
}

define i1 @exact_quotients_equal_64(i64 %x, i64 %y) {
  %v1 = udiv exact i64 %x, 7
  %v2 = udiv exact i64 %y, 7
  %v3 = icmp eq i64 %v1, %v2
  ret i1 %v3
}

define i1 @exact_quotients_below_signed_64(i64 %x, i64 %y) {
  %v1 = sdiv exact i64 %x, 24
  %v2 = sdiv exact i64 %y, 24
  %v3 = icmp slt i64 %v1, %v2
  ret i1 %v3
}

define i1 @products_below_64(i64 %x, i64 %y) {
  %v1 = mul nuw i64 %x, 47
  %v2 = mul nuw i64 %y, 47
  %v3 = icmp ugt i64 %v1, %v2
  ret i1 %v3
}

define i64 @shift_of_sum_64(i64 %x, i64 %y, i64 %z) {
  %v1 = add i64 %x, %y
  %v2 = shl i64 %v1, %z
  ret i64 %v2
}

define i64 @shift_of_sum_nuw_64(i64 %x, i64 %y, i64 %z) {
  %v1 = add nuw i64 %x, %y
  %v2 = shl nuw i64 %v1, %z
  ret i64 %v2
}

define i64 @shift_taken_back_64(i64 %x, i64 %y, i64 %z) {
  %v1 = shl nuw i64 %x, %z
  %v2 = shl nuw i64 %y, %z
  %v3 = add nuw i64 %v1, %v2
  %v4 = lshr i64 %v3, %z
  ret i64 %v4
}

define i64 @wrong_remainder_of_product_64(i64 %x, i64 %y) {
  %v1 = mul i64 %x, %y
  %v2 = urem i64 %v1, %y
  ret i64 %v2
}

define i1 @wrong_quotients_below_64(i64 %x, i64 %y) {
  %v1 = udiv i64 %x, 10
  %v2 = udiv i64 %y, 10
  %v3 = icmp ult i64 %v1, %v2
  ret i1 %v3
}

define i64 @wrong_shift_of_sum_64(i64 %x, i64 %y, i64 %z) {
  %v1 = add i64 %x, %y
  %v2 = shl nuw i64 %v1, %z
  ret i64 %v2
}
