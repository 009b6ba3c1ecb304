; Sums, differences and products modulo 2^n: equal as polynomials, but for those named wrong_.

define i8 @square_distributed_8(i8 %a, i8 %b, i8 %c) {
  %v1 = mul i8 %a, %a
  %v2 = mul i8 %v1, %b
  %v3 = mul i8 %a, %c
  %v4 = mul i8 %v3, %a
  %v5 = add i8 %v2, %v4
  ret i8 %v5
}

define i8 @square_collected_8(i8 %a, i8 %b, i8 %c) {
  %v1 = sub i8 %b, %c
  %v2 = mul i8 %v1, %a
  %v3 = mul i8 %v2, %a
  ret i8 %v3
}

define i8 @difference_times_47_8(i8 %x, i8 %y) {
  %v1 = mul i8 %x, 47
  %v2 = mul i8 %y, 47
  %v3 = sub i8 %v1, %v2
  ret i8 %v3
}

define i8 @sum_times_83_8(i8 %x, i8 %y) {
  %v1 = add i8 %y, %x
  %v2 = mul i8 %v1, 83
  ret i8 %v2
}

define i8 @factors_in_turn_8(i8 %x, i8 %c, i8 %d) {
  %v1 = mul i8 %x, %c
  %v2 = mul i8 %v1, %d
  ret i8 %v2
}

define i8 @factors_exchanged_8(i8 %a, i8 %b, i8 %c, i8 %d) {
  %v1 = mul i8 %a, %b
  %v2 = mul i8 %c, %d
  %v3 = mul i8 %v1, %v2
  ret i8 %v3
}

define i8 @constants_in_turn_8(i8 %x) {
  %v1 = mul i8 %x, 47
  %v2 = mul i8 %v1, 53
  ret i8 %v2
}

define i8 @square_taken_off_8(i8 %x, i8 %y) {
  %v1 = add i8 %x, %y
  %v2 = mul i8 %v1, %y
  %v3 = mul i8 %y, %y
  %v4 = sub i8 %v2, %v3
  ret i8 %v4
}

define i8 @square_of_sum_8(i8 %x, i8 %y) {
  %v1 = add i8 %x, %y
  %v2 = add i8 %x, %y
  %v3 = mul i8 %v1, %v2
  ret i8 %v3
}

define i8 @difference_of_squares_8(i8 %x, i8 %y) {
  %v1 = mul i8 %x, %x
  %v2 = mul i8 %y, %y
  %v3 = sub i8 %v1, %v2
  ret i8 %v3
}

define i8 @difference_of_cubes_8(i8 %x, i8 %y) {
  %v1 = sub i8 %x, %y
  %v2 = mul i8 %x, %x
  %v3 = mul i8 %x, %y
  %v4 = add i8 %v2, %v3
  %v5 = mul i8 %y, %y
  %v6 = add i8 %v4, %v5
  %v7 = mul i8 %v1, %v6
  ret i8 %v7
}

define i8 @twenty_sums_8(i8 %x) {
  %v1 = add i8 %x, 1
  %v2 = add i8 %x, 2
  %v3 = add i8 %v1, %v2
  %v4 = add i8 %x, 3
  %v5 = add i8 %v3, %v4
  %v6 = add i8 %x, 4
  %v7 = add i8 %v5, %v6
  %v8 = add i8 %x, 5
  %v9 = add i8 %v7, %v8
  %v10 = add i8 %x, 6
  %v11 = add i8 %v9, %v10
  %v12 = add i8 %x, 7
  %v13 = add i8 %v11, %v12
  %v14 = add i8 %x, 8
  %v15 = add i8 %v13, %v14
  %v16 = add i8 %x, 9
  %v17 = add i8 %v15, %v16
  %v18 = add i8 %x, 10
  %v19 = add i8 %v17, %v18
  %v20 = add i8 %x, 11
  %v21 = add i8 %v19, %v20
  %v22 = add i8 %x, 12
  %v23 = add i8 %v21, %v22
  %v24 = add i8 %x, 13
  %v25 = add i8 %v23, %v24
  %v26 = add i8 %x, 14
  %v27 = add i8 %v25, %v26
  %v28 = add i8 %x, 15
  %v29 = add i8 %v27, %v28
  %v30 = add i8 %x, 16
  %v31 = add i8 %v29, %v30
  %v32 = add i8 %x, 17
  %v33 = add i8 %v31, %v32
  %v34 = add i8 %x, 18
  %v35 = add i8 %v33, %v34
  %v36 = add i8 %x, 19
  %v37 = add i8 %v35, %v36
  %v38 = add i8 %x, 20
  %v39 = add i8 %v37, %v38
  ret i8 %v39
}

define i8 @twenty_sums_reversed_8(i8 %x) {
  %v1 = add i8 %x, 1
  %v2 = add i8 %x, 2
  %v3 = add i8 %v1, %v2
  %v4 = add i8 %x, 3
  %v5 = add i8 %v3, %v4
  %v6 = add i8 %x, 4
  %v7 = add i8 %v5, %v6
  %v8 = add i8 %x, 5
  %v9 = add i8 %v7, %v8
  %v10 = add i8 %x, 6
  %v11 = add i8 %v9, %v10
  %v12 = add i8 %x, 7
  %v13 = add i8 %v11, %v12
  %v14 = add i8 %x, 8
  %v15 = add i8 %v13, %v14
  %v16 = add i8 %x, 9
  %v17 = add i8 %v15, %v16
  %v18 = add i8 %x, 10
  %v19 = add i8 %v17, %v18
  %v20 = add i8 %x, 11
  %v21 = add i8 %v19, %v20
  %v22 = add i8 %x, 12
  %v23 = add i8 %v21, %v22
  %v24 = add i8 %x, 13
  %v25 = add i8 %v23, %v24
  %v26 = add i8 %x, 14
  %v27 = add i8 %v25, %v26
  %v28 = add i8 %x, 15
  %v29 = add i8 %v27, %v28
  %v30 = add i8 %x, 16
  %v31 = add i8 %v29, %v30
  %v32 = add i8 %x, 17
  %v33 = add i8 %v31, %v32
  %v34 = add i8 %x, 18
  %v35 = add i8 %v33, %v34
  %v36 = add i8 %x, 19
  %v37 = add i8 %v35, %v36
  %v38 = add i8 %x, 20
  %v39 = add i8 %v37, %v38
  ret i8 %v39
}

define i8 @shifted_sum_of_products_8(i8 %x, i8 %y, i8 %z) {
  %v1 = shl i8 %x, 3
  %v2 = mul i8 %v1, %y
  %v3 = shl i8 %y, 3
  %v4 = mul i8 %v3, %z
  %v5 = sub i8 %v2, %v4
  ret i8 %v5
}

define i8 @shift_as_product_8(i8 %x, i8 %y) {
  %v1 = shl i8 %x, 5
  %v2 = mul i8 %y, 32
  %v3 = add i8 %v1, %v2
  ret i8 %v3
}

define i8 @three_terms_8(i8 %a, i8 %b, i8 %c, i8 %d) {
  %v1 = mul i8 %a, %b
  %v2 = mul i8 %c, %a
  %v3 = add i8 %v1, %v2
  %v4 = mul i8 %a, %d
  %v5 = add i8 %v3, %v4
  ret i8 %v5
}

define i8 @cyclic_sum_8(i8 %a, i8 %b, i8 %c) {
  %v1 = sub i8 %b, %c
  %v2 = mul i8 %a, %v1
  %v3 = sub i8 %c, %a
  %v4 = mul i8 %b, %v3
  %v5 = add i8 %v2, %v4
  %v6 = sub i8 %a, %b
  %v7 = mul i8 %c, %v6
  %v8 = add i8 %v5, %v7
  ret i8 %v8
}

define i8 @horner_8(i8 %a, i8 %b, i8 %c, i8 %x) {
  %v1 = mul i8 %a, %x
  %v2 = mul i8 %v1, %x
  %v3 = mul i8 %b, %x
  %v4 = add i8 %v2, %v3
  %v5 = add i8 %v4, %c
  ret i8 %v5
}

define i8 @negated_factors_8(i8 %x, i8 %y) {
  %v1 = sub i8 0, %x
  %v2 = mul i8 %v1, %y
  %v3 = sub i8 0, %x
  %v4 = mul i8 %y, %v3
  %v5 = mul i8 %v4, 3
  %v6 = sub i8 %v2, %v5
  ret i8 %v6
}

define i8 @complement_times_8(i8 %x, i8 %y) {
  %v1 = xor i8 %x, -1
  %v2 = mul i8 %v1, %y
  ret i8 %v2
}

define i8 @wrong_square_distributed_8(i8 %a, i8 %b, i8 %c) {
  %v1 = mul i8 %a, %a
  %v2 = mul i8 %v1, %b
  %v3 = mul i8 %a, %c
  %v4 = mul i8 %v3, %a
  %v5 = add i8 %v2, %v4
  ret i8 %v5
}

define i8 @wrong_difference_times_47_8(i8 %x, i8 %y) {
  %v1 = mul i8 %x, 47
  %v2 = mul i8 %y, 47
  %v3 = sub i8 %v1, %v2
  ret i8 %v3
}

define i8 @wrong_twenty_sums_8(i8 %x) {
  %v1 = add i8 %x, 1
  %v2 = add i8 %x, 2
  %v3 = add i8 %v1, %v2
  %v4 = add i8 %x, 3
  %v5 = add i8 %v3, %v4
  %v6 = add i8 %x, 4
  %v7 = add i8 %v5, %v6
  %v8 = add i8 %x, 5
  %v9 = add i8 %v7, %v8
  %v10 = add i8 %x, 6
  %v11 = add i8 %v9, %v10
  %v12 = add i8 %x, 7
  %v13 = add i8 %v11, %v12
  %v14 = add i8 %x, 8
  %v15 = add i8 %v13, %v14
  %v16 = add i8 %x, 9
  %v17 = add i8 %v15, %v16
  %v18 = add i8 %x, 10
  %v19 = add i8 %v17, %v18
  %v20 = add i8 %x, 11
  %v21 = add i8 %v19, %v20
  %v22 = add i8 %x, 12
  %v23 = add i8 %v21, %v22
  %v24 = add i8 %x, 13
  %v25 = add i8 %v23, %v24
  %v26 = add i8 %x, 14
  %v27 = add i8 %v25, %v26
  %v28 = add i8 %x, 15
  %v29 = add i8 %v27, %v28
  %v30 = add i8 %x, 16
  %v31 = add i8 %v29, %v30
  %v32 = add i8 %x, 17
  %v33 = add i8 %v31, %v32
  %v34 = add i8 %x, 18
  %v35 = add i8 %v33, %v34
  %v36 = add i8 %x, 19
  %v37 = add i8 %v35, %v36
  %v38 = add i8 %x, 20
  %v39 = add i8 %v37, %v38
  ret i8 %v39
}

define i32 @square_distributed_32(i32 %a, i32 %b, i32 %c) {
  %v1 = mul i32 %a, %a
  %v2 = mul i32 %v1, %b
  %v3 = mul i32 %a, %c
  %v4 = mul i32 %v3, %a
  %v5 = add i32 %v2, %v4
  ret i32 %v5
}

define i32 @square_collected_32(i32 %a, i32 %b, i32 %c) {
  %v1 = sub i32 %b, %c
  %v2 = mul i32 %v1, %a
  %v3 = mul i32 %v2, %a
  ret i32 %v3
}

define i32 @difference_times_47_32(i32 %x, i32 %y) {
  %v1 = mul i32 %x, 47
  %v2 = mul i32 %y, 47
  %v3 = sub i32 %v1, %v2
  ret i32 %v3
}

define i32 @sum_times_83_32(i32 %x, i32 %y) {
  %v1 = add i32 %y, %x
  %v2 = mul i32 %v1, 83
  ret i32 %v2
}

define i32 @factors_in_turn_32(i32 %x, i32 %c, i32 %d) {
  %v1 = mul i32 %x, %c
  %v2 = mul i32 %v1, %d
  ret i32 %v2
}

define i32 @factors_exchanged_32(i32 %a, i32 %b, i32 %c, i32 %d) {
  %v1 = mul i32 %a, %b
  %v2 = mul i32 %c, %d
  %v3 = mul i32 %v1, %v2
  ret i32 %v3
}

define i32 @constants_in_turn_32(i32 %x) {
  %v1 = mul i32 %x, 47
  %v2 = mul i32 %v1, 53
  ret i32 %v2
}

define i32 @square_taken_off_32(i32 %x, i32 %y) {
  %v1 = add i32 %x, %y
  %v2 = mul i32 %v1, %y
  %v3 = mul i32 %y, %y
  %v4 = sub i32 %v2, %v3
  ret i32 %v4
}

define i32 @square_of_sum_32(i32 %x, i32 %y) {
  %v1 = add i32 %x, %y
  %v2 = add i32 %x, %y
  %v3 = mul i32 %v1, %v2
  ret i32 %v3
}

define i32 @difference_of_squares_32(i32 %x, i32 %y) {
  %v1 = mul i32 %x, %x
  %v2 = mul i32 %y, %y
  %v3 = sub i32 %v1, %v2
  ret i32 %v3
}

define i32 @difference_of_cubes_32(i32 %x, i32 %y) {
  %v1 = sub i32 %x, %y
  %v2 = mul i32 %x, %x
  %v3 = mul i32 %x, %y
  %v4 = add i32 %v2, %v3
  %v5 = mul i32 %y, %y
  %v6 = add i32 %v4, %v5
  %v7 = mul i32 %v1, %v6
  ret i32 %v7
}

define i32 @twenty_sums_32(i32 %x) {
  %v1 = add i32 %x, 1
  %v2 = add i32 %x, 2
  %v3 = add i32 %v1, %v2
  %v4 = add i32 %x, 3
  %v5 = add i32 %v3, %v4
  %v6 = add i32 %x, 4
  %v7 = add i32 %v5, %v6
  %v8 = add i32 %x, 5
  %v9 = add i32 %v7, %v8
  %v10 = add i32 %x, 6
  %v11 = add i32 %v9, %v10
  %v12 = add i32 %x, 7
  %v13 = add i32 %v11, %v12
  %v14 = add i32 %x, 8
  %v15 = add i32 %v13, %v14
  %v16 = add i32 %x, 9
  %v17 = add i32 %v15, %v16
  %v18 = add i32 %x, 10
  %v19 = add i32 %v17, %v18
  %v20 = add i32 %x, 11
  %v21 = add i32 %v19, %v20
  %v22 = add i32 %x, 12
  %v23 = add i32 %v21, %v22
  %v24 = add i32 %x, 13
  %v25 = add i32 %v23, %v24
  %v26 = add i32 %x, 14
  %v27 = add i32 %v25, %v26
  %v28 = add i32 %x, 15
  %v29 = add i32 %v27, %v28
  %v30 = add i32 %x, 16
  %v31 = add i32 %v29, %v30
  %v32 = add i32 %x, 17
  %v33 = add i32 %v31, %v32
  %v34 = add i32 %x, 18
  %v35 = add i32 %v33, %v34
  %v36 = add i32 %x, 19
  %v37 = add i32 %v35, %v36
  %v38 = add i32 %x, 20
  %v39 = add i32 %v37, %v38
  ret i32 %v39
}

define i32 @twenty_sums_reversed_32(i32 %x) {
  %v1 = add i32 %x, 1
  %v2 = add i32 %x, 2
  %v3 = add i32 %v1, %v2
  %v4 = add i32 %x, 3
  %v5 = add i32 %v3, %v4
  %v6 = add i32 %x, 4
  %v7 = add i32 %v5, %v6
  %v8 = add i32 %x, 5
  %v9 = add i32 %v7, %v8
  %v10 = add i32 %x, 6
  %v11 = add i32 %v9, %v10
  %v12 = add i32 %x, 7
  %v13 = add i32 %v11, %v12
  %v14 = add i32 %x, 8
  %v15 = add i32 %v13, %v14
  %v16 = add i32 %x, 9
  %v17 = add i32 %v15, %v16
  %v18 = add i32 %x, 10
  %v19 = add i32 %v17, %v18
  %v20 = add i32 %x, 11
  %v21 = add i32 %v19, %v20
  %v22 = add i32 %x, 12
  %v23 = add i32 %v21, %v22
  %v24 = add i32 %x, 13
  %v25 = add i32 %v23, %v24
  %v26 = add i32 %x, 14
  %v27 = add i32 %v25, %v26
  %v28 = add i32 %x, 15
  %v29 = add i32 %v27, %v28
  %v30 = add i32 %x, 16
  %v31 = add i32 %v29, %v30
  %v32 = add i32 %x, 17
  %v33 = add i32 %v31, %v32
  %v34 = add i32 %x, 18
  %v35 = add i32 %v33, %v34
  %v36 = add i32 %x, 19
  %v37 = add i32 %v35, %v36
  %v38 = add i32 %x, 20
  %v39 = add i32 %v37, %v38
  ret i32 %v39
}

define i32 @shifted_sum_of_products_32(i32 %x, i32 %y, i32 %z) {
  %v1 = shl i32 %x, 3
  %v2 = mul i32 %v1, %y
  %v3 = shl i32 %y, 3
  %v4 = mul i32 %v3, %z
  %v5 = sub i32 %v2, %v4
  ret i32 %v5
}

define i32 @shift_as_product_32(i32 %x, i32 %y) {
  %v1 = shl i32 %x, 5
  %v2 = mul i32 %y, 32
  %v3 = add i32 %v1, %v2
  ret i32 %v3
}

define i32 @three_terms_32(i32 %a, i32 %b, i32 %c, i32 %d) {
  %v1 = mul i32 %a, %b
  %v2 = mul i32 %c, %a
  %v3 = add i32 %v1, %v2
  %v4 = mul i32 %a, %d
  %v5 = add i32 %v3, %v4
  ret i32 %v5
}

define i32 @cyclic_sum_32(i32 %a, i32 %b, i32 %c) {
  %v1 = sub i32 %b, %c
  %v2 = mul i32 %a, %v1
  %v3 = sub i32 %c, %a
  %v4 = mul i32 %b, %v3
  %v5 = add i32 %v2, %v4
  %v6 = sub i32 %a, %b
  %v7 = mul i32 %c, %v6
  %v8 = add i32 %v5, %v7
  ret i32 %v8
}

define i32 @horner_32(i32 %a, i32 %b, i32 %c, i32 %x) {
  %v1 = mul i32 %a, %x
  %v2 = mul i32 %v1, %x
  %v3 = mul i32 %b, %x
  %v4 = add i32 %v2, %v3
  %v5 = add i32 %v4, %c
  ret i32 %v5
}

define i32 @negated_factors_32(i32 %x, i32 %y) {
  %v1 = sub i32 0, %x
  %v2 = mul i32 %v1, %y
  %v3 = sub i32 0, %x
  %v4 = mul i32 %y, %v3
  %v5 = mul i32 %v4, 3
  %v6 = sub i32 %v2, %v5
  ret i32 %v6
}

define i32 @complement_times_32(i32 %x, i32 %y) {
  %v1 = xor i32 %x, -1
  %v2 = mul i32 %v1, %y
  ret i32 %v2
}

define i32 @wrong_square_distributed_32(i32 %a, i32 %b, i32 %c) {
  %v1 = mul i32 %a, %a
  %v2 = mul i32 %v1, %b
  %v3 = mul i32 %a, %c
  %v4 = mul i32 %v3, %a
  %v5 = add i32 %v2, %v4
  ret i32 %v5
}

define i32 @wrong_difference_times_47_32(i32 %x, i32 %y) {
  %v1 = mul i32 %x, 47
  %v2 = mul i32 %y, 47
  %v3 = sub i32 %v1, %v2
  ret i32 %v3
}

define i32 @wrong_twenty_sums_32(i32 %x) {
  %v1 = add i32 %x, 1
  %v2 = add i32 %x, 2
  %v3 = add i32 %v1, %v2
  %v4 = add i32 %x, 3
  %v5 = add i32 %v3, %v4
  %v6 = add i32 %x, 4
  %v7 = add i32 %v5, %v6
  %v8 = add i32 %x, 5
  %v9 = add i32 %v7, %v8
  %v10 = add i32 %x, 6
  %v11 = add i32 %v9, %v10
  %v12 = add i32 %x, 7
  %v13 = add i32 %v11, %v12
  %v14 = add i32 %x, 8
  %v15 = add i32 %v13, %v14
  %v16 = add i32 %x, 9
  %v17 = add i32 %v15, %v16
  %v18 = add i32 %x, 10
  %v19 = add i32 %v17, %v18
  %v20 = add i32 %x, 11
  %v21 = add i32 %v19, %v20
  %v22 = add i32 %x, 12
  %v23 = add i32 %v21, %v22
  %v24 = add i32 %x, 13
  %v25 = add i32 %v23, %v24
  %v26 = add i32 %x, 14
  %v27 = add i32 %v25, %v26
  %v28 = add i32 %x, 15
  %v29 = add i32 %v27, %v28
  %v30 = add i32 %x, 16
  %v31 = add i32 %v29, %v30
  %v32 = add i32 %x, 17
  %v33 = add i32 %v31, %v32
  %v34 = add i32 %x, 18
  %v35 = add i32 %v33, %v34
  %v36 = add i32 %x, 19
  %v37 = add i32 %v35, %v36
  %v38 = add i32 %x, 20
  %v39 = add i32 %v37, %v38
  ret i32 %v39
}

define i64 @square_distributed_64(i64 %a, i64 %b, i64 %c) {
  %v1 = mul i64 %a, %a
  %v2 = mul i64 %v1, %b
  %v3 = mul i64 %a, %c
  %v4 = mul i64 %v3, %a
  %v5 = add i64 %v2, %v4
  ret i64 %v5
}

define i64 @square_collected_64(i64 %a, i64 %b, i64 %c) {
  %v1 = sub i64 %b, %c
  %v2 = mul i64 %v1, %a
  %v3 = mul i64 %v2, %a
  ret i64 %v3
}

define i64 @difference_times_47_64(i64 %x, i64 %y) {
  %v1 = mul i64 %x, 47
  %v2 = mul i64 %y, 47
  %v3 = sub i64 %v1, %v2
  ret i64 %v3
}

define i64 @sum_times_83_64(i64 %x, i64 %y) {
  %v1 = add i64 %y, %x
  %v2 = mul i64 %v1, 83
  ret i64 %v2
}

define i64 @factors_in_turn_64(i64 %x, i64 %c, i64 %d) {
  %v1 = mul i64 %x, %c
  %v2 = mul i64 %v1, %d
  ret i64 %v2
}

define i64 @factors_exchanged_64(i64 %a, i64 %b, i64 %c, i64 %d) {
  %v1 = mul i64 %a, %b
  %v2 = mul i64 %c, %d
  %v3 = mul i64 %v1, %v2
  ret i64 %v3
}

define i64 @constants_in_turn_64(i64 %x) {
  %v1 = mul i64 %x, 47
  %v2 = mul i64 %v1, 53
  ret i64 %v2
}

define i64 @square_taken_off_64(i64 %x, i64 %y) {
  %v1 = add i64 %x, %y
  %v2 = mul i64 %v1, %y
  %v3 = mul i64 %y, %y
  %v4 = sub i64 %v2, %v3
  ret i64 %v4
}

define i64 @square_of_sum_64(i64 %x, i64 %y) {
  %v1 = add i64 %x, %y
  %v2 = add i64 %x, %y
  %v3 = mul i64 %v1, %v2
  ret i64 %v3
}

define i64 @difference_of_squares_64(i64 %x, i64 %y) {
  %v1 = mul i64 %x, %x
  %v2 = mul i64 %y, %y
  %v3 = sub i64 %v1, %v2
  ret i64 %v3
}

define i64 @difference_of_cubes_64(i64 %x, i64 %y) {
  %v1 = sub i64 %x, %y
  %v2 = mul i64 %x, %x
  %v3 = mul i64 %x, %y
  %v4 = add i64 %v2, %v3
  %v5 = mul i64 %y, %y
  %v6 = add i64 %v4, %v5
  %v7 = mul i64 %v1, %v6
  ret i64 %v7
}

define i64 @twenty_sums_64(i64 %x) {
  %v1 = add i64 %x, 1
  %v2 = add i64 %x, 2
  %v3 = add i64 %v1, %v2
  %v4 = add i64 %x, 3
  %v5 = add i64 %v3, %v4
  %v6 = add i64 %x, 4
  %v7 = add i64 %v5, %v6
  %v8 = add i64 %x, 5
  %v9 = add i64 %v7, %v8
  %v10 = add i64 %x, 6
  %v11 = add i64 %v9, %v10
  %v12 = add i64 %x, 7
  %v13 = add i64 %v11, %v12
  %v14 = add i64 %x, 8
  %v15 = add i64 %v13, %v14
  %v16 = add i64 %x, 9
  %v17 = add i64 %v15, %v16
  %v18 = add i64 %x, 10
  %v19 = add i64 %v17, %v18
  %v20 = add i64 %x, 11
  %v21 = add i64 %v19, %v20
  %v22 = add i64 %x, 12
  %v23 = add i64 %v21, %v22
  %v24 = add i64 %x, 13
  %v25 = add i64 %v23, %v24
  %v26 = add i64 %x, 14
  %v27 = add i64 %v25, %v26
  %v28 = add i64 %x, 15
  %v29 = add i64 %v27, %v28
  %v30 = add i64 %x, 16
  %v31 = add i64 %v29, %v30
  %v32 = add i64 %x, 17
  %v33 = add i64 %v31, %v32
  %v34 = add i64 %x, 18
  %v35 = add i64 %v33, %v34
  %v36 = add i64 %x, 19
  %v37 = add i64 %v35, %v36
  %v38 = add i64 %x, 20
  %v39 = add i64 %v37, %v38
  ret i64 %v39
}

define i64 @twenty_sums_reversed_64(i64 %x) {
  %v1 = add i64 %x, 1
  %v2 = add i64 %x, 2
  %v3 = add i64 %v1, %v2
  %v4 = add i64 %x, 3
  %v5 = add i64 %v3, %v4
  %v6 = add i64 %x, 4
  %v7 = add i64 %v5, %v6
  %v8 = add i64 %x, 5
  %v9 = add i64 %v7, %v8
  %v10 = add i64 %x, 6
  %v11 = add i64 %v9, %v10
  %v12 = add i64 %x, 7
  %v13 = add i64 %v11, %v12
  %v14 = add i64 %x, 8
  %v15 = add i64 %v13, %v14
  %v16 = add i64 %x, 9
  %v17 = add i64 %v15, %v16
  %v18 = add i64 %x, 10
  %v19 = add i64 %v17, %v18
  %v20 = add i64 %x, 11
  %v21 = add i64 %v19, %v20
  %v22 = add i64 %x, 12
  %v23 = add i64 %v21, %v22
  %v24 = add i64 %x, 13
  %v25 = add i64 %v23, %v24
  %v26 = add i64 %x, 14
  %v27 = add i64 %v25, %v26
  %v28 = add i64 %x, 15
  %v29 = add i64 %v27, %v28
  %v30 = add i64 %x, 16
  %v31 = add i64 %v29, %v30
  %v32 = add i64 %x, 17
  %v33 = add i64 %v31, %v32
  %v34 = add i64 %x, 18
  %v35 = add i64 %v33, %v34
  %v36 = add i64 %x, 19
  %v37 = add i64 %v35, %v36
  %v38 = add i64 %x, 20
  %v39 = add i64 %v37, %v38
  ret i64 %v39
}

define i64 @shifted_sum_of_products_64(i64 %x, i64 %y, i64 %z) {
  %v1 = shl i64 %x, 3
  %v2 = mul i64 %v1, %y
  %v3 = shl i64 %y, 3
  %v4 = mul i64 %v3, %z
  %v5 = sub i64 %v2, %v4
  ret i64 %v5
}

define i64 @shift_as_product_64(i64 %x, i64 %y) {
  %v1 = shl i64 %x, 5
  %v2 = mul i64 %y, 32
  %v3 = add i64 %v1, %v2
  ret i64 %v3
}

define i64 @three_terms_64(i64 %a, i64 %b, i64 %c, i64 %d) {
  %v1 = mul i64 %a, %b
  %v2 = mul i64 %c, %a
  %v3 = add i64 %v1, %v2
  %v4 = mul i64 %a, %d
  %v5 = add i64 %v3, %v4
  ret i64 %v5
}

define i64 @cyclic_sum_64(i64 %a, i64 %b, i64 %c) {
  %v1 = sub i64 %b, %c
  %v2 = mul i64 %a, %v1
  %v3 = sub i64 %c, %a
  %v4 = mul i64 %b, %v3
  %v5 = add i64 %v2, %v4
  %v6 = sub i64 %a, %b
  %v7 = mul i64 %c, %v6
  %v8 = add i64 %v5, %v7
  ret i64 %v8
}

define i64 @horner_64(i64 %a, i64 %b, i64 %c, i64 %x) {
  %v1 = mul i64 %a, %x
  %v2 = mul i64 %v1, %x
  %v3 = mul i64 %b, %x
  %v4 = add i64 %v2, %v3
  %v5 = add i64 %v4, %c
  ret i64 %v5
}

define i64 @negated_factors_64(i64 %x, i64 %y) {
  %v1 = sub i64 0, %x
  %v2 = mul i64 %v1, %y
  %v3 = sub i64 0, %x
  %v4 = mul i64 %y, %v3
  %v5 = mul i64 %v4, 3
  %v6 = sub i64 %v2, %v5
  ret i64 %v6
}

define i64 @complement_times_64(i64 %x, i64 %y) {
  %v1 = xor i64 %x, -1
  %v2 = mul i64 %v1, %y
  ret i64 %v2
}

define i64 @wrong_square_distributed_64(i64 %a, i64 %b, i64 %c) {
  %v1 = mul i64 %a, %a
  %v2 = mul i64 %v1, %b
  %v3 = mul i64 %a, %c
  %v4 = mul i64 %v3, %a
  %v5 = add i64 %v2, %v4
  ret i64 %v5
}

define i64 @wrong_difference_times_47_64(i64 %x, i64 %y) {
  %v1 = mul i64 %x, 47
  %v2 = mul i64 %y, 47
  %v3 = sub i64 %v1, %v2
  ret i64 %v3
}

define i64 @wrong_twenty_sums_64(i64 %x) {
  %v1 = add i64 %x, 1
  %v2 = add i64 %x, 2
  %v3 = add i64 %v1, %v2
  %v4 = add i64 %x, 3
  %v5 = add i64 %v3, %v4
  %v6 = add i64 %x, 4
  %v7 = add i64 %v5, %v6
  %v8 = add i64 %x, 5
  %v9 = add i64 %v7, %v8
  %v10 = add i64 %x, 6
  %v11 = add i64 %v9, %v10
  %v12 = add i64 %x, 7
  %v13 = add i64 %v11, %v12
  %v14 = add i64 %x, 8
  %v15 = add i64 %v13, %v14
  %v16 = add i64 %x, 9
  %v17 = add i64 %v15, %v16
  %v18 = add i64 %x, 10
  %v19 = add i64 %v17, %v18
  %v20 = add i64 %x, 11
  %v21 = add i64 %v19, %v20
  %v22 = add i64 %x, 12
  %v23 = add i64 %v21, %v22
  %v24 = add i64 %x, 13
  %v25 = add i64 %v23, %v24
  %v26 = add i64 %x, 14
  %v27 = add i64 %v25, %v26
  %v28 = add i64 %x, 15
  %v29 = add i64 %v27, %v28
  %v30 = add i64 %x, 16
  %v31 = add i64 %v29, %v30
  %v32 = add i64 %x, 17
  %v33 = add i64 %v31, %v32
  %v34 = add i64 %x, 18
  %v35 = add i64 %v33, %v34
  %v36 = add i64 %x, 19
  %v37 = add i64 %v35, %v36
  %v38 = add i64 %x, 20
  %v39 = add i64 %v37, %v38
  ret i64 %v39
}
