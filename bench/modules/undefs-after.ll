define i4 @and_left(i4 %x) {
  ret i4 0
}

define i4 @and_left.reassociate(i4 %x) {
  %r = and i4 %x, undef
  ret i4 %r
}

define i4 @and_right(i4 %x) {
  ret i4 0
}

define i4 @and_both() {
  ret i4 undef
}

define i4 @or_left(i4 %x) {
  ret i4 -1
}

define i4 @or_left.reassociate(i4 %x) {
  %r = or i4 %x, undef
  ret i4 %r
}

define i4 @or_disjoint(i4 %x) {
  ret i4 -1
}

define i4 @or_both() {
  ret i4 undef
}

define i4 @xor_left(i4 %x) {
  ret i4 undef
}

define i4 @xor_left.reassociate(i4 %x) {
  %r = xor i4 %x, undef
  ret i4 %r
}

define i4 @xor_both() {
  ret i4 0
}

define i4 @add_left(i4 %x) {
  ret i4 undef
}

define i4 @add_left.reassociate(i4 %x) {
  %r = add i4 %x, undef
  ret i4 %r
}

define i4 @add_nsw(i4 %x) {
  ret i4 undef
}

define i4 @add_nuw(i4 %x) {
  ret i4 undef
}

define i4 @add_nuw_nsw(i4 %x) {
  ret i4 undef
}

define i4 @add_both() {
  ret i4 undef
}

define i4 @sub_left(i4 %x) {
  ret i4 undef
}

define i4 @sub_right(i4 %x) {
  ret i4 undef
}

define i4 @sub_nsw(i4 %x) {
  ret i4 undef
}

define i4 @sub_both() {
  ret i4 undef
}

define i4 @mul_even() {
  ret i4 0
}

define i4 @mul_odd() {
  ret i4 undef
}

define i4 @mul_register(i4 %x) {
  ret i4 0
}

define i4 @mul_both() {
  ret i4 undef
}

define i4 @shl_undef(i4 %x) {
  ret i4 0
}

define i4 @shl_by_undef(i4 %x) {
  ret i4 poison
}

define i4 @shl_by_one() {
  ret i4 0
}

define i4 @shl_nsw_by_one() {
  ret i4 0
}

define i4 @lshr_by_one() {
  ret i4 0
}

define i4 @lshr_exact() {
  ret i4 0
}

define i4 @ashr_by_undef(i4 %x) {
  ret i4 poison
}

define i4 @ashr_by_one() {
  ret i4 0
}

define i1 @icmp_eq(i4 %x) {
  ret i1 undef
}

define i1 @icmp_ne_both() {
  ret i1 undef
}

define i1 @icmp_ne_both.newgvn() {
  ret i1 false
}

define i1 @icmp_ult(i4 %x) {
  ret i1 false
}

define i1 @icmp_ult_one() {
  ret i1 false
}

define i1 @icmp_sge(i4 %x) {
  ret i1 true
}

define i2 @trunc_undef() {
  ret i2 undef
}

define i4 @zext_undef() {
  ret i4 0
}

define i4 @sext_undef() {
  ret i4 0
}

define i4 @select_condition(i4 %x, i4 %y) {
  ret i4 %x
}

define i4 @select_condition_constants() {
  ret i4 5
}

define i4 @select_true(i1 %c, i4 noundef %x) {
  ret i4 %x
}

define i4 @select_false(i1 %c, i4 noundef %x) {
  ret i4 %x
}

define i4 @select_both(i1 %c) {
  ret i4 undef
}

define i4 @same_register() {
  ret i4 undef
}

define i4 @same_register.sccp() {
  %a = add nuw nsw i4 undef, 0
  %r = sub i4 %a, %a
  ret i4 %r
}

define i4 @same_register.reassociate() {
  %r = sub i4 undef, undef
  ret i4 %r
}

define i4 @same_frozen() {
  ret i4 0
}

define i4 @same_frozen.early-cse() {
  %b = freeze i4 undef
  ret i4 0
}

define i4 @same_frozen.reassociate() {
  %b = freeze i4 undef
  %r = sub i4 %b, %b
  ret i4 %r
}

define i4 @freeze_and() {
  ret i4 0
}

define i4 @freeze_and.reassociate() {
  %r = freeze i4 0
  ret i4 %r
}

define i4 @freeze_twice() {
  %b = freeze i4 undef
  %c = freeze i4 undef
  %r = add i4 %b, %c
  ret i4 %r
}

define i4 @freeze_twice.instcombine() {
  ret i4 0
}

define i4 @freeze_twice.early-cse() {
  %b = freeze i4 undef
  %r = add i4 %b, %b
  ret i4 %r
}

define i4 @reassociated(i4 %x) {
  ret i4 0
}

define i4 @reassociated.newgvn(i4 %x) {
  %r = and i4 undef, %x
  ret i4 %r
}

define i4 @reassociated.reassociate(i4 %x) {
  %r = and i4 %x, undef
  ret i4 %r
}

define i4 @common(i4 %x) {
  ret i4 0
}

define i4 @common.sccp(i4 %x) {
  %a = or i4 undef, -4
  %b = or i4 undef, -4
  %r = xor i4 %a, %b
  ret i4 %r
}

define i4 @branches(i1 %c, i4 %x) {
entry:
  br i1 %c, label %then, label %else

then:
  br label %end

else:
  br label %end

end:
  %r = phi i4 [ 0, %then ], [ %x, %else ]
  ret i4 %r
}

define i4 @branches.reassociate(i1 %c, i4 %x) {
entry:
  %a = and i4 %x, undef
  br i1 %c, label %then, label %else

then:
  %b = freeze i4 %a
  br label %end

else:
  br label %end

end:
  %r = phi i4 [ %b, %then ], [ %x, %else ]
  ret i4 %r
}

define i4 @branches.simplifycfg(i1 %c, i4 %x) {
entry:
  %a = and i4 undef, %x
  %b = freeze i4 %a
  %r = select i1 %c, i4 %b, i4 %x
  ret i4 %r
}

define i4 @branches.sroa_early-cse_simplifycfg(i1 %c, i4 %x) {
entry:
  %.x = select i1 %c, i4 0, i4 %x
  ret i4 %.x
}

define i4 @stored(ptr %p) {
  %b = freeze i4 undef
  %w = zext i4 %b to i8
  store i8 %w, ptr %p, align 1
  %v = load i8, ptr %p, align 1
  %r = trunc i8 %v to i4
  ret i4 %r
}

define i4 @stored.instcombine(ptr %p) {
  store i8 0, ptr %p, align 1
  ret i4 0
}

define i4 @stored.sccp(ptr %p) {
  %a = add i4 undef, 1
  %b = freeze i4 %a
  %w = zext i4 %b to i8
  store i8 %w, ptr %p, align 1
  %v = load i8, ptr %p, align 1
  %r = trunc i8 %v to i4
  ret i4 %r
}

define i4 @stored.early-cse(ptr %p) {
  %b = freeze i4 undef
  %w = zext i4 %b to i8
  store i8 %w, ptr %p, align 1
  ret i4 %b
}

define i4 @wrong_mul_even() {
  ret i4 undef
}

define i4 @wrong_and(i4 %x) {
  ret i4 undef
}

define i4 @wrong_or() {
  ret i4 undef
}

define i4 @wrong_select(i4 %x, i4 %y) {
  ret i4 undef
}

define i4 @wrong_select_poison(i1 %c, i4 %x) {
  ret i4 %x
}

define i4 @wrong_zext() {
  ret i4 undef
}

define i1 @wrong_icmp_below_zero() {
  ret i1 undef
}

define i4 @wrong_lshr() {
  ret i4 undef
}

define i4 @wrong_same_frozen() {
  ret i4 1
}

define i4 @wrong_frozen_twice() {
  %a = add i4 undef, 0
  %b = freeze i4 %a
  %c = freeze i4 %a
  %r = add i4 %b, %c
  ret i4 %r
}

define i4 @wrong_two_uses() {
  %a = or i4 undef, 0
  %r = xor i4 %a, %a
  ret i4 %r
}

define i4 @wrong_hoisted_use(i1 %c) {
  %a = select i1 undef, i4 3, i4 5
  %r = select i1 %c, i4 %a, i4 %a
  ret i4 %r
}

define i4 @wrong_poison() {
  ret i4 poison
}
