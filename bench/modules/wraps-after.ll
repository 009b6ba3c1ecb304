; What holds where no product, sum or shift wraps, or a division is exact; those named wrong_ are no refinements.

define i8 @remainder_of_product_8(i8 %x, i8 %y) {
  ret i8 0
}

define i8 @remainder_of_product_signed_8(i8 %x, i8 %y) {
  ret i8 0
}

define i8 @remainder_of_shift_8(i8 %x, i8 %y) {
  ret i8 0
}

define i8 @quotient_of_product_8(i8 %x, i8 %y) {
  ret i8 %x
}

define i8 @quotient_of_product_signed_8(i8 %x, i8 %y) {
  ret i8 %x
}

define i8 @quotient_of_shift_8(i8 %x, i8 %y) {
  %v1 = xor i8 %x, %x
  %v2 = add i8 %y, %v1
  %v3 = shl nuw i8 1, %v2
  ret i8 %v3
}

define i8 @remainder_of_sum_8(i8 %x, i8 %y, i8 %z) {
  %v1 = urem i8 %z, %y
  ret i8 %v1
}

define i8 @quotient_of_24_times_8(i8 %x) {
  %v1 = mul nuw i8 %x, 3
  ret i8 %v1
}

define i1 @exact_quotients_below_8(i8 %x, i8 %y) {
  %v1 = icmp ult i8 %x, %y
  ret i1 %v1
}

define i1 @exact_quotients_equal_8(i8 %x, i8 %y) {
  %v1 = icmp eq i8 %x, %y
  ret i1 %v1
}

define i1 @exact_quotients_below_signed_8(i8 %x, i8 %y) {
  %v1 = icmp slt i8 %x, %y
  ret i1 %v1
}

define i1 @products_below_8(i8 %x, i8 %y) {
  %v1 = icmp ugt i8 %x, %y
  ret i1 %v1
}

define i8 @shift_of_sum_8(i8 %x, i8 %y, i8 %z) {
  %v1 = shl i8 %x, %z
  %v2 = shl i8 %y, %z
  %v3 = add i8 %v1, %v2
  ret i8 %v3
}

define i8 @shift_of_sum_nuw_8(i8 %x, i8 %y, i8 %z) {
  %v1 = shl nuw i8 %x, %z
  %v2 = shl nuw i8 %y, %z
  %v3 = add nuw i8 %v1, %v2
  ret i8 %v3
}

define i8 @shift_taken_back_8(i8 %x, i8 %y, i8 %z) {
  %v1 = add i8 %x, %y
  ret i8 %v1
}

define i8 @wrong_remainder_of_product_8(i8 %x, i8 %y) {
  ret i8 0
}

define i1 @wrong_quotients_below_8(i8 %x, i8 %y) {
  %v1 = icmp ult i8 %x, %y
  ret i1 %v1
}

define i8 @wrong_shift_of_sum_8(i8 %x, i8 %y, i8 %z) {
  %v1 = shl nuw i8 %x, %z
  %v2 = shl nuw i8 %y, %z
  %v3 = add nuw i8 %v1, %v2
  ret i8 %v3
}

define i32 @remainder_of_product_32(i32 %x, i32 %y) {
  ret i32 0
}

define i32 @remainder_of_product_signed_32(i32 %x, i32 %y) {
  ret i32 0
}

define i32 @remainder_of_shift_32(i32 %x, i32 %y) {
  ret i32 0
}

define i32 @quotient_of_product_32(i32 %x, i32 %y) {
  ret i32 %x
}

define i32 @quotient_of_product_signed_32(i32 %x, i32 %y) {
  ret i32 %x
}

define i32 @quotient_of_shift_32(i32 %x, i32 %y) {
  %v1 = xor i32 %x, %x
  %v2 = add i32 %y, %v1
  %v3 = shl nuw i32 1, %v2
  ret i32 %v3
}

define i32 @remainder_of_sum_32(i32 %x, i32 %y, i32 %z) {
  %v1 = urem i32 %z, %y
  ret i32 %v1
}

define i32 @quotient_of_24_times_32(i32 %x) {
  %v1 = mul nuw i32 %x, 3
  ret i32 %v1
}

define i1 @exact_quotients_below_32(i32 %x, i32 %y) {
  %v1 = icmp ult i32 %x, %y
  ret i1 %v1
}

define i1 @exact_quotients_equal_32(i32 %x, i32 %y) {
  %v1 = icmp eq i32 %x, %y
  ret i1 %v1
}

define i1 @exact_quotients_below_signed_32(i32 %x, i32 %y) {
  %v1 = icmp slt i32 %x, %y
  ret i1 %v1
}

define i1 @products_below_32(i32 %x, i32 %y) {
  %v1 = icmp ugt i32 %x, %y
  ret i1 %v1
}

define i32 @shift_of_sum_32(i32 %x, i32 %y, i32 %z) {
  %v1 = shl i32 %x, %z
  %v2 = shl i32 %y, %z
  %v3 = add i32 %v1, %v2
  ret i32 %v3
}

define i32 @shift_of_sum_nuw_32(i32 %x, i32 %y, i32 %z) {
  %v1 = shl nuw i32 %x, %z
  %v2 = shl nuw i32 %y, %z
  %v3 = add nuw i32 %v1, %v2
  ret i32 %v3
}

define i32 @shift_taken_back_32(i32 %x, i32 %y, i32 %z) {
  %v1 = add i32 %x, %y
  ret i32 %v1
}

define i32 @wrong_remainder_of_product_32(i32 %x, i32 %y) {
  ret i32 0
}

define i1 @wrong_quotients_below_32(i32 %x, i32 %y) {
  %v1 = icmp ult i32 %x, %y
  ret i1 %v1
}

define i32 @wrong_shift_of_sum_32(i32 %x, i32 %y, i32 %z) {
  %v1 = shl nuw i32 %x, %z
  %v2 = shl nuw i32 %y, %z
  %v3 = add nuw i32 %v1, %v2
  ret i32 %v3
}

define i64 @remainder_of_product_64(i64 %x, i64 %y) {
  ret i64 0
}

define i64 @remainder_of_product_signed_64(i64 %x, i64 %y) {
  ret i64 0
}

define i64 @remainder_of_shift_64(i64 %x, i64 %y) {
  ret i64 0
}

define i64 @quotient_of_product_64(i64 %x, i64 %y) {
  ret i64 %x
}

define i64 @quotient_of_product_signed_64(i64 %x, i64 %y) {
  ret i64 %x
}

define i64 @quotient_of_shift_64(i64 %x, i64 %y) {
  %v1 = xor i64 %x, %x
  %v2 = add i64 %y, %v1
  %v3 = shl nuw i64 1, %v2
  ret i64 %v3
}

define i64 @remainder_of_sum_64(i64 %x, i64 %y, i64 %z) {
  %v1 = urem i64 %z, %y
  ret i64 %v1
}

define i64 @quotient_of_24_times_64(i64 %x) {
  %v1 = mul nuw i64 %x, 3
  ret i64 %v1
}

define i1 @exact_quotients_below_64(i64 %x, i64 %y) {
  %v1 = icmp ult i64 %x, %y
  ret i1 %v1
}

define i1 @exact_quotients_equal_64(i64 %x, i64 %y) {
  %v1 = icmp eq i64 %x, %y
  ret i1 %v1
}

define i1 @exact_quotients_below_signed_64(i64 %x, i64 %y) {
  %v1 = icmp slt i64 %x, %y
  ret i1 %v1
}

define i1 @products_below_64(i64 %x, i64 %y) {
  %v1 = icmp ugt i64 %x, %y
  ret i1 %v1
}

define i64 @shift_of_sum_64(i64 %x, i64 %y, i64 %z) {
  %v1 = shl i64 %x, %z
  %v2 = shl i64 %y, %z
  %v3 = add i64 %v1, %v2
  ret i64 %v3
}

define i64 @shift_of_sum_nuw_64(i64 %x, i64 %y, i64 %z) {
  %v1 = shl nuw i64 %x, %z
  %v2 = shl nuw i64 %y, %z
  %v3 = add nuw i64 %v1, %v2
  ret i64 %v3
}

define i64 @shift_taken_back_64(i64 %x, i64 %y, i64 %z) {
  %v1 = add i64 %x, %y
  ret i64 %v1
}

define i64 @wrong_remainder_of_product_64(i64 %x, i64 %y) {
  ret i64 0
}

define i1 @wrong_quotients_below_64(i64 %x, i64 %y) {
  %v1 = icmp ult i64 %x, %y
  ret i1 %v1
}

define i64 @wrong_shift_of_sum_64(i64 %x, i64 %y, i64 %z) {
  %v1 = shl nuw i64 %x, %z
  %v2 = shl nuw i64 %y, %z
  %v3 = add nuw i64 %v1, %v2
  ret i64 %v3
}
