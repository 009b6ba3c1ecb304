define i4 @and_left(i4 %x) {
  %r = and i4 undef, %x
  ret i4 %r
}

define i4 @and_left.reassociate(i4 %x) {
  %r = and i4 undef, %x
  ret i4 %r
}

define i4 @and_right(i4 %x) {
  %r = and i4 %x, undef
  ret i4 %r
}

define i4 @and_both() {
  %r = and i4 undef, undef
  ret i4 %r
}

define i4 @or_left(i4 %x) {
  %r = or i4 undef, %x
  ret i4 %r
}

define i4 @or_left.reassociate(i4 %x) {
  %r = or i4 undef, %x
  ret i4 %r
}

define i4 @or_disjoint(i4 %x) {
  %r = or disjoint i4 %x, undef
  ret i4 %r
}

define i4 @or_both() {
  %r = or i4 undef, undef
  ret i4 %r
}

define i4 @xor_left(i4 %x) {
  %r = xor i4 undef, %x
  ret i4 %r
}

define i4 @xor_left.reassociate(i4 %x) {
  %r = xor i4 undef, %x
  ret i4 %r
}

define i4 @xor_both() {
  %r = xor i4 undef, undef
  ret i4 %r
}

define i4 @add_left(i4 %x) {
  %r = add i4 undef, %x
  ret i4 %r
}

define i4 @add_left.reassociate(i4 %x) {
  %r = add i4 undef, %x
  ret i4 %r
}

define i4 @add_nsw(i4 %x) {
  %r = add nsw i4 %x, undef
  ret i4 %r
}

define i4 @add_nuw(i4 %x) {
  %r = add nuw i4 %x, undef
  ret i4 %r
}

define i4 @add_nuw_nsw(i4 %x) {
  %r = add nuw nsw i4 %x, undef
  ret i4 %r
}

define i4 @add_both() {
  %r = add i4 undef, undef
  ret i4 %r
}

define i4 @sub_left(i4 %x) {
  %r = sub i4 undef, %x
  ret i4 %r
}

define i4 @sub_right(i4 %x) {
  %r = sub i4 %x, undef
  ret i4 %r
}

define i4 @sub_nsw(i4 %x) {
  %r = sub nsw i4 %x, undef
  ret i4 %r
}

define i4 @sub_both() {
  %r = sub i4 undef, undef
  ret i4 %r
}

define i4 @mul_even() {
  %r = mul i4 undef, 2
  ret i4 %r
}

define i4 @mul_odd() {
  %r = mul i4 undef, 3
  ret i4 %r
}

define i4 @mul_register(i4 %x) {
  %r = mul i4 %x, undef
  ret i4 %r
}

define i4 @mul_both() {
  %r = mul i4 undef, undef
  ret i4 %r
}

define i4 @shl_undef(i4 %x) {
  %r = shl i4 undef, %x
  ret i4 %r
}

define i4 @shl_by_undef(i4 %x) {
  %r = shl i4 %x, undef
  ret i4 %r
}

define i4 @shl_by_one() {
  %r = shl i4 undef, 1
  ret i4 %r
}

define i4 @shl_nsw_by_one() {
  %r = shl nsw i4 undef, 1
  ret i4 %r
}

define i4 @lshr_by_one() {
  %r = lshr i4 undef, 1
  ret i4 %r
}

define i4 @lshr_exact() {
  %r = lshr exact i4 undef, 2
  ret i4 %r
}

define i4 @ashr_by_undef(i4 %x) {
  %r = ashr i4 %x, undef
  ret i4 %r
}

define i4 @ashr_by_one() {
  %r = ashr i4 undef, 1
  ret i4 %r
}

define i1 @icmp_eq(i4 %x) {
  %r = icmp eq i4 %x, undef
  ret i1 %r
}

define i1 @icmp_ne_both() {
  %r = icmp ne i4 undef, undef
  ret i1 %r
}

define i1 @icmp_ne_both.newgvn() {
  %r = icmp ne i4 undef, undef
  ret i1 %r
}

define i1 @icmp_ult(i4 %x) {
  %r = icmp ult i4 undef, %x
  ret i1 %r
}

define i1 @icmp_ult_one() {
  %r = icmp ult i4 undef, 1
  ret i1 %r
}

define i1 @icmp_sge(i4 %x) {
  %r = icmp sge i4 %x, undef
  ret i1 %r
}

define i2 @trunc_undef() {
  %r = trunc i4 undef to i2
  ret i2 %r
}

define i4 @zext_undef() {
  %r = zext i2 undef to i4
  ret i4 %r
}

define i4 @sext_undef() {
  %r = sext i2 undef to i4
  ret i4 %r
}

define i4 @select_condition(i4 %x, i4 %y) {
  %r = select i1 undef, i4 %x, i4 %y
  ret i4 %r
}

define i4 @select_condition_constants() {
  %r = select i1 undef, i4 3, i4 5
  ret i4 %r
}

define i4 @select_true(i1 %c, i4 noundef %x) {
  %r = select i1 %c, i4 undef, i4 %x
  ret i4 %r
}

define i4 @select_false(i1 %c, i4 noundef %x) {
  %r = select i1 %c, i4 %x, i4 undef
  ret i4 %r
}

define i4 @select_both(i1 %c) {
  %r = select i1 %c, i4 undef, i4 undef
  ret i4 %r
}

define i4 @same_register() {
  %a = add i4 undef, 0
  %r = sub i4 %a, %a
  ret i4 %r
}

define i4 @same_register.sccp() {
  %a = add i4 undef, 0
  %r = sub i4 %a, %a
  ret i4 %r
}

define i4 @same_register.reassociate() {
  %a = add i4 undef, 0
  %r = sub i4 %a, %a
  ret i4 %r
}

define i4 @same_frozen() {
  %a = add i4 undef, 1
  %b = freeze i4 %a
  %r = sub i4 %b, %b
  ret i4 %r
}

define i4 @same_frozen.early-cse() {
  %a = add i4 undef, 1
  %b = freeze i4 %a
  %r = sub i4 %b, %b
  ret i4 %r
}

define i4 @same_frozen.reassociate() {
  %a = add i4 undef, 1
  %b = freeze i4 %a
  %r = sub i4 %b, %b
  ret i4 %r
}

define i4 @freeze_and() {
  %a = and i4 undef, 6
  %r = freeze i4 %a
  ret i4 %r
}

define i4 @freeze_and.reassociate() {
  %a = and i4 undef, 6
  %r = freeze i4 %a
  ret i4 %r
}

define i4 @freeze_twice() {
  %a = xor i4 undef, 5
  %b = freeze i4 %a
  %c = freeze i4 %a
  %r = add i4 %b, %c
  ret i4 %r
}

define i4 @freeze_twice.instcombine() {
  %a = xor i4 undef, 5
  %b = freeze i4 %a
  %c = freeze i4 %a
  %r = add i4 %b, %c
  ret i4 %r
}

define i4 @freeze_twice.early-cse() {
  %a = xor i4 undef, 5
  %b = freeze i4 %a
  %c = freeze i4 %a
  %r = add i4 %b, %c
  ret i4 %r
}

define i4 @reassociated(i4 %x) {
  %a = add i4 undef, 3
  %b = add i4 %a, 4
  %r = and i4 %b, %x
  ret i4 %r
}

define i4 @reassociated.newgvn(i4 %x) {
  %a = add i4 undef, 3
  %b = add i4 %a, 4
  %r = and i4 %b, %x
  ret i4 %r
}

define i4 @reassociated.reassociate(i4 %x) {
  %a = add i4 undef, 3
  %b = add i4 %a, 4
  %r = and i4 %b, %x
  ret i4 %r
}

define i4 @common(i4 %x) {
  %a = or i4 undef, 12
  %b = or i4 undef, 12
  %r = xor i4 %a, %b
  ret i4 %r
}

define i4 @common.sccp(i4 %x) {
  %a = or i4 undef, 12
  %b = or i4 undef, 12
  %r = xor i4 %a, %b
  ret i4 %r
}

define i4 @branches(i1 %c, i4 %x) {
entry:
  %a = and i4 undef, %x
  br i1 %c, label %then, label %else

then:
  %b = freeze i4 %a
  br label %end

else:
  br label %end

end:
  %r = phi i4 [ %b, %then ], [ %x, %else ]
  ret i4 %r
}

define i4 @branches.reassociate(i1 %c, i4 %x) {
entry:
  %a = and i4 undef, %x
  br i1 %c, label %then, label %else

then:
  %b = freeze i4 %a
  br label %end

else:
  br label %end

end:
  %r = phi i4 [ %b, %then ], [ %x, %else ]
  ret i4 %r
}

define i4 @branches.simplifycfg(i1 %c, i4 %x) {
entry:
  %a = and i4 undef, %x
  br i1 %c, label %then, label %else

then:
  %b = freeze i4 %a
  br label %end

else:
  br label %end

end:
  %r = phi i4 [ %b, %then ], [ %x, %else ]
  ret i4 %r
}

define i4 @branches.sroa_early-cse_simplifycfg(i1 %c, i4 %x) {
entry:
  %a = and i4 undef, %x
  br i1 %c, label %then, label %else

then:
  %b = freeze i4 %a
  br label %end

else:
  br label %end

end:
  %r = phi i4 [ %b, %then ], [ %x, %else ]
  ret i4 %r
}

define i4 @stored(ptr %p) {
  %a = add i4 undef, 1
  %b = freeze i4 %a
  %w = zext i4 %b to i8
  store i8 %w, ptr %p
  %v = load i8, ptr %p
  %r = trunc i8 %v to i4
  ret i4 %r
}

define i4 @stored.instcombine(ptr %p) {
  %a = add i4 undef, 1
  %b = freeze i4 %a
  %w = zext i4 %b to i8
  store i8 %w, ptr %p
  %v = load i8, ptr %p
  %r = trunc i8 %v to i4
  ret i4 %r
}

define i4 @stored.sccp(ptr %p) {
  %a = add i4 undef, 1
  %b = freeze i4 %a
  %w = zext i4 %b to i8
  store i8 %w, ptr %p
  %v = load i8, ptr %p
  %r = trunc i8 %v to i4
  ret i4 %r
}

define i4 @stored.early-cse(ptr %p) {
  %a = add i4 undef, 1
  %b = freeze i4 %a
  %w = zext i4 %b to i8
  store i8 %w, ptr %p
  %v = load i8, ptr %p
  %r = trunc i8 %v to i4
  ret i4 %r
}

define i4 @wrong_mul_even() {
  %r = mul i4 undef, 2
  ret i4 %r
}

define i4 @wrong_and(i4 %x) {
  %r = and i4 %x, undef
  ret i4 %r
}

define i4 @wrong_or() {
  %r = or i4 undef, 1
  ret i4 %r
}

define i4 @wrong_select(i4 %x, i4 %y) {
  %r = select i1 undef, i4 %x, i4 %y
  ret i4 %r
}

define i4 @wrong_select_poison(i1 %c, i4 %x) {
  %r = select i1 %c, i4 undef, i4 %x
  ret i4 %r
}

define i4 @wrong_zext() {
  %r = zext i2 undef to i4
  ret i4 %r
}

define i1 @wrong_icmp_below_zero() {
  %r = icmp ult i4 undef, 0
  ret i1 %r
}

define i4 @wrong_lshr() {
  %r = lshr i4 undef, 1
  ret i4 %r
}

define i4 @wrong_same_frozen() {
  %a = add i4 undef, 0
  %b = freeze i4 %a
  %r = sub i4 %b, %b
  ret i4 %r
}

define i4 @wrong_frozen_twice() {
  %a = add i4 undef, 0
  %b = freeze i4 %a
  %r = add i4 %b, %b
  ret i4 %r
}

define i4 @wrong_two_uses() {
  ret i4 0
}

define i4 @wrong_hoisted_use(i1 %c) {
  %r = select i1 %c, i4 3, i4 5
  ret i4 %r
}

define i4 @wrong_poison() {
  %r = add i4 undef, 1
  ret i4 %r
}
