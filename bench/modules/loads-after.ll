; Functions over memory, after what LLVM 19.1.7 made of them by gvn, early-cse and gvn-hoist; the name's last part is the pass.

define i32 @arms_load_both.gvn-hoist(ptr noundef %p, ptr noundef %q, i1 noundef zeroext %c) {
entry:
  %storedv = zext i1 %c to i8
  %loadedv = trunc i8 %storedv to i1
  %0 = load i32, ptr %p, align 4
  %1 = load i32, ptr %q, align 4
  br i1 %loadedv, label %if.then, label %if.end

if.then:
  %add = add i32 %0, %1
  br label %return

if.end:
  %sub = sub i32 %0, %1
  br label %return

return:
  %retval.0 = phi i32 [ %add, %if.then ], [ %sub, %if.end ]
  ret i32 %retval.0
}

define i32 @nested_tests.gvn-hoist(ptr noundef %p, ptr noundef %q, i1 noundef zeroext %c, i1 noundef zeroext %d) {
entry:
  %storedv = zext i1 %c to i8
  %storedv1 = zext i1 %d to i8
  %loadedv = trunc i8 %storedv to i1
  %loadedv2 = trunc i8 %storedv1 to i1
  br i1 %loadedv, label %if.then, label %if.else4

if.then:
  br i1 %loadedv2, label %if.then3, label %if.else

if.then3:
  store i32 1, ptr %p, align 4
  br label %if.end

if.else:
  store i32 1, ptr %q, align 4
  br label %if.end

if.end:
  br label %if.end9

if.else4:
  br i1 %loadedv2, label %if.then6, label %if.else7

if.then6:
  store i32 1, ptr %p, align 4
  br label %if.end8

if.else7:
  store i32 1, ptr %q, align 4
  br label %if.end8

if.end8:
  br label %if.end9

if.end9:
  %0 = load i32, ptr %p, align 4
  ret i32 %0
}

define void @negated_twice.gvn(ptr noundef %p, ptr noundef %q, i1 noundef zeroext %c) {
entry:
  %storedv = zext i1 %c to i8
  %lnot = xor i1 %c, true
  %storedv1 = zext i1 %lnot to i8
  br i1 %lnot, label %if.else, label %if.then

if.then:
  %0 = load i8, ptr %q, align 1
  store i8 %0, ptr %p, align 1
  br label %if.end

if.else:
  store i8 1, ptr %q, align 1
  br label %if.end

if.end:
  ret void
}

define i32 @local_of_pointers.gvn(ptr noundef %p, ptr noundef %q, i1 noundef zeroext %c) {
entry:
  %t = alloca [2 x ptr], align 16
  %storedv = zext i1 %c to i8
  store ptr %p, ptr %t, align 16
  %arrayidx1 = getelementptr inbounds [2 x ptr], ptr %t, i64 0, i64 1
  store ptr %q, ptr %arrayidx1, align 8
  store i32 4, ptr %p, align 4
  %idxprom = zext i1 %c to i64
  %arrayidx3 = getelementptr inbounds [2 x ptr], ptr %t, i64 0, i64 %idxprom
  %0 = load ptr, ptr %arrayidx3, align 8
  %1 = load i32, ptr %0, align 4
  ret i32 %1
}

define i32 @test_again.gvn(ptr noundef %p, ptr noundef %q, i1 noundef zeroext %c) {
entry:
  %storedv = zext i1 %c to i8
  br i1 %c, label %if.then, label %if.end

if.then:
  %0 = load i32, ptr %p, align 4
  br label %if.end

if.end:
  %r.0 = phi i32 [ %0, %if.then ], [ 0, %entry ]
  store i32 %r.0, ptr %q, align 4
  br i1 %c, label %if.then2, label %if.end3

if.then2:
  %1 = load i32, ptr %p, align 4
  %add = add i32 %r.0, %1
  br label %if.end3

if.end3:
  %r.1 = phi i32 [ %add, %if.then2 ], [ %r.0, %if.end ]
  ret i32 %r.1
}

define void @store_two_exchanged.gvn(ptr noundef %p, ptr noundef %q, i1 noundef zeroext %c, i32 noundef %x) {
entry:
  %storedv = zext i1 %c to i8
  br i1 %c, label %if.then, label %if.else

if.then:
  store i32 %x, ptr %p, align 4
  store i32 %x, ptr %q, align 4
  br label %if.end

if.else:
  store i32 %x, ptr %q, align 4
  store i32 %x, ptr %p, align 4
  br label %if.end

if.end:
  ret void
}

define i64 @load_wide_twice.gvn(ptr noundef %p, ptr noundef %q, i1 noundef zeroext %c) {
entry:
  %storedv = zext i1 %c to i8
  %0 = load i64, ptr %p, align 8
  br i1 %c, label %if.then, label %if.end

if.then:
  %1 = load i64, ptr %q, align 8
  %add = add i64 %0, %1
  br label %if.end

if.end:
  %a.0 = phi i64 [ %add, %if.then ], [ %0, %entry ]
  %sub = sub i64 %a.0, %0
  ret i64 %sub
}

define void @pointers_exchanged_twice.gvn(ptr noundef %p, ptr noundef %q) {
entry:
  %0 = load ptr, ptr %p, align 8
  %1 = load ptr, ptr %q, align 8
  store ptr %1, ptr %p, align 8
  store ptr %0, ptr %q, align 8
  %2 = load ptr, ptr %p, align 8
  store ptr %0, ptr %p, align 8
  store ptr %2, ptr %q, align 8
  ret void
}

define void @store_in_arm_after.gvn(ptr noundef %p, ptr noundef %q, i1 noundef zeroext %c) {
entry:
  %storedv = zext i1 %c to i8
  store i32 1, ptr %p, align 4
  br i1 %c, label %if.then, label %if.end

if.then:
  store i32 2, ptr %p, align 4
  br label %if.end

if.end:
  store i32 3, ptr %q, align 4
  ret void
}

define void @pair_of_locals.gvn(ptr noundef %p, ptr noundef %q, i1 noundef zeroext %c) {
entry:
  %storedv = zext i1 %c to i8
  %0 = load i8, ptr %p, align 1
  %1 = load i8, ptr %q, align 1
  br i1 %c, label %if.then, label %if.end

if.then:
  br label %if.end

if.end:
  %t.sroa.0.0 = phi i8 [ %1, %if.then ], [ %0, %entry ]
  store i8 %t.sroa.0.0, ptr %p, align 1
  %conv = zext i8 %t.sroa.0.0 to i32
  %conv7 = zext i8 %1 to i32
  %add = add nsw i32 %conv, %conv7
  %conv8 = trunc i32 %add to i8
  store i8 %conv8, ptr %q, align 1
  ret void
}

define i32 @pointer_of_arm.gvn(ptr noundef %p, ptr noundef %q, ptr noundef %r, i1 noundef zeroext %c) {
entry:
  %storedv = zext i1 %c to i8
  br i1 %c, label %if.then, label %if.else

if.then:
  store i32 99, ptr %r, align 4
  %0 = load i32, ptr %p, align 4
  %1 = load i32, ptr %q, align 4
  %cmp = icmp ult i32 %0, %1
  br i1 %cmp, label %cond.true, label %cond.false

cond.true:
  br label %cond.end

cond.false:
  br label %cond.end

cond.end:
  %cond = phi ptr [ %p, %cond.true ], [ %q, %cond.false ]
  br label %if.end

if.else:
  br label %if.end

if.end:
  %s.0 = phi ptr [ %cond, %cond.end ], [ %p, %if.else ]
  %2 = load i32, ptr %s.0, align 4
  ret i32 %2
}

define i32 @partly_there.gvn(ptr noundef %p, ptr noundef %q, i1 noundef zeroext %c) {
entry:
  %storedv = zext i1 %c to i8
  %.pre = load i32, ptr %p, align 4
  br i1 %c, label %if.then, label %if.end

if.then:
  store i32 %.pre, ptr %q, align 4
  br label %if.end

if.end:
  %r.0 = phi i32 [ %.pre, %if.then ], [ 0, %entry ]
  %add = add i32 %r.0, %.pre
  ret i32 %add
}

define i32 @partly_there_other.gvn(ptr noundef %p, ptr noundef %q, i1 noundef zeroext %c) {
entry:
  %storedv = zext i1 %c to i8
  br i1 %c, label %if.then, label %if.else

if.then:
  store i32 9, ptr %p, align 4
  br label %if.end

if.else:
  store i32 4, ptr %q, align 4
  %.pre = load i32, ptr %p, align 4
  br label %if.end

if.end:
  %0 = phi i32 [ %.pre, %if.else ], [ 9, %if.then ]
  ret i32 %0
}

define i32 @select_load.gvn(ptr noundef %p, ptr noundef %q, i1 noundef zeroext %c) {
entry:
  %storedv = zext i1 %c to i8
  br i1 %c, label %cond.true, label %cond.false

cond.true:
  br label %cond.end

cond.false:
  br label %cond.end

cond.end:
  %cond = phi ptr [ %p, %cond.true ], [ %q, %cond.false ]
  %0 = load i32, ptr %cond, align 4
  %add = add i32 %0, %0
  ret i32 %add
}

define i64 @select_store.gvn(ptr noundef %p, ptr noundef %q, i1 noundef zeroext %c, i64 noundef %x) {
entry:
  %storedv = zext i1 %c to i8
  br i1 %c, label %cond.true, label %cond.false

cond.true:
  br label %cond.end

cond.false:
  br label %cond.end

cond.end:
  %cond = phi ptr [ %p, %cond.true ], [ %q, %cond.false ]
  store i64 %x, ptr %cond, align 8
  ret i64 %x
}

define i32 @load_again_after_other_store.gvn(ptr noundef %p, ptr noundef %q, i32 noundef %x) {
entry:
  %0 = load i32, ptr %p, align 4
  store i32 %x, ptr %q, align 4
  %add = add i32 %0, %x
  %1 = load i32, ptr %p, align 4
  %add1 = add i32 %add, %1
  ret i32 %add1
}

define zeroext i8 @load_bytes_twice.gvn(ptr noundef %p, ptr noundef %q) {
entry:
  %0 = load i8, ptr %p, align 1
  %conv = zext i8 %0 to i32
  %arrayidx1 = getelementptr inbounds i8, ptr %q, i64 1
  %1 = load i8, ptr %arrayidx1, align 1
  %conv2 = zext i8 %1 to i32
  %xor = xor i32 %conv, %conv2
  %conv3 = trunc i32 %xor to i8
  %conv10 = zext i8 %conv3 to i32
  %add = add nsw i32 %conv10, %conv10
  %add14 = add nsw i32 %add, %conv
  %conv15 = trunc i32 %add14 to i8
  ret i8 %conv15
}

define zeroext i8 @through_pointer_twice.gvn(ptr noundef %p, ptr noundef %q) {
entry:
  %0 = load ptr, ptr %p, align 8
  %1 = load i8, ptr %0, align 1
  %conv = zext i8 %1 to i32
  %2 = load ptr, ptr %q, align 8
  %3 = load i8, ptr %2, align 1
  %conv1 = zext i8 %3 to i32
  %add = add nsw i32 %conv, %conv1
  %add3 = add nsw i32 %add, %conv
  %conv4 = trunc i32 %add3 to i8
  ret i8 %conv4
}

define zeroext i8 @store_forwarded_bytes.gvn(ptr noundef %p, ptr noundef %q, i8 noundef zeroext %x) {
entry:
  %arrayidx = getelementptr inbounds i8, ptr %p, i64 1
  store i8 %x, ptr %arrayidx, align 1
  store i8 %x, ptr %q, align 1
  %conv = zext i8 %x to i32
  %0 = load i8, ptr %arrayidx, align 1
  %conv5 = zext i8 %0 to i32
  %add = add nsw i32 %conv, %conv5
  %conv6 = trunc i32 %add to i8
  ret i8 %conv6
}

define i32 @compared_twice.gvn(ptr noundef %p, ptr noundef %q) {
entry:
  %0 = load i32, ptr %p, align 4
  %1 = load i32, ptr %q, align 4
  %cmp = icmp slt i32 %0, %1
  br i1 %cmp, label %if.then, label %if.end

if.then:
  br label %return

if.end:
  %cmp1 = icmp sgt i32 %0, %1
  br i1 %cmp1, label %if.then2, label %if.end3

if.then2:
  br label %return

if.end3:
  %cmp4 = icmp eq i32 %0, %1
  %conv = zext i1 %cmp4 to i32
  br label %return

return:
  %retval.0 = phi i32 [ 1, %if.then ], [ 2, %if.then2 ], [ %conv, %if.end3 ]
  ret i32 %retval.0
}

define void @field_written_twice.gvn(ptr noundef %p, ptr noundef %q) {
entry:
  %0 = load i32, ptr %q, align 4
  %arrayidx1 = getelementptr inbounds i32, ptr %p, i64 1
  store i32 %0, ptr %arrayidx1, align 4
  %arrayidx2 = getelementptr inbounds i32, ptr %q, i64 1
  %1 = load i32, ptr %arrayidx2, align 4
  store i32 %1, ptr %p, align 4
  store i32 %1, ptr %arrayidx1, align 4
  ret void
}

define void @copy_of_copy.gvn(ptr noundef %p, ptr noundef %q, ptr noundef %r) {
entry:
  %0 = load i64, ptr %p, align 8
  store i64 %0, ptr %q, align 8
  store i64 %0, ptr %r, align 8
  %1 = load i64, ptr %p, align 8
  store i64 %1, ptr %q, align 8
  ret void
}

define i32 @local_pointer.gvn(ptr noundef %p, ptr noundef %q, i1 noundef zeroext %c) {
entry:
  %storedv = zext i1 %c to i8
  br i1 %c, label %if.then, label %if.end

if.then:
  br label %if.end

if.end:
  %s.0 = phi ptr [ %q, %if.then ], [ %p, %entry ]
  store i32 8, ptr %s.0, align 4
  %0 = load i32, ptr %p, align 4
  ret i32 %0
}

define i32 @least_of_three.gvn(ptr noundef %p, ptr noundef %q, ptr noundef %r) {
entry:
  %0 = load i32, ptr %p, align 4
  %1 = load i32, ptr %q, align 4
  %cmp = icmp ult i32 %1, %0
  br i1 %cmp, label %if.then, label %if.end

if.then:
  br label %if.end

if.end:
  %a.0 = phi i32 [ %1, %if.then ], [ %0, %entry ]
  %2 = load i32, ptr %r, align 4
  %cmp1 = icmp ult i32 %2, %a.0
  br i1 %cmp1, label %if.then2, label %if.end3

if.then2:
  br label %if.end3

if.end3:
  %a.1 = phi i32 [ %2, %if.then2 ], [ %a.0, %if.end ]
  ret i32 %a.1
}

define zeroext i16 @bytes_joined.gvn(ptr noundef %p, ptr noundef %q) {
entry:
  %0 = load i8, ptr %p, align 1
  %conv = zext i8 %0 to i32
  %arrayidx1 = getelementptr inbounds i8, ptr %p, i64 1
  %1 = load i8, ptr %arrayidx1, align 1
  %conv2 = zext i8 %1 to i16
  %conv3 = zext i16 %conv2 to i32
  %shl = shl i32 %conv3, 8
  %or = or i32 %conv, %shl
  %conv4 = trunc i32 %or to i16
  store i8 3, ptr %q, align 1
  %2 = load i8, ptr %p, align 1
  %conv6 = zext i8 %2 to i32
  %3 = load i8, ptr %arrayidx1, align 1
  %conv8 = zext i8 %3 to i16
  %conv9 = zext i16 %conv8 to i32
  %shl10 = shl i32 %conv9, 8
  %or11 = or i32 %conv6, %shl10
  %conv12 = trunc i32 %or11 to i16
  %conv13 = zext i16 %conv4 to i32
  %conv14 = zext i16 %conv12 to i32
  %xor = xor i32 %conv13, %conv14
  %conv15 = trunc i32 %xor to i16
  ret i16 %conv15
}

define i32 @store_forwarded.gvn(ptr noundef %p, ptr noundef %q, i32 noundef %x) {
entry:
  store i32 %x, ptr %p, align 4
  %add = add i32 %x, 1
  store i32 %add, ptr %q, align 4
  ret i32 %add
}

define void @store_larger.early-cse(ptr noundef %p, ptr noundef %q) {
entry:
  %0 = load i32, ptr %p, align 4
  %1 = load i32, ptr %q, align 4
  %cmp = icmp slt i32 %0, %1
  br i1 %cmp, label %if.then, label %if.end

if.then:
  store i32 %1, ptr %p, align 4
  br label %if.end

if.end:
  ret void
}

define void @three_rotated.early-cse(ptr noundef %p, ptr noundef %q, ptr noundef %r) {
entry:
  %0 = load i8, ptr %p, align 1
  %1 = load i8, ptr %q, align 1
  store i8 %1, ptr %p, align 1
  %2 = load i8, ptr %r, align 1
  store i8 %2, ptr %q, align 1
  store i8 %0, ptr %r, align 1
  %3 = load i8, ptr %p, align 1
  ret void
}

define void @field_written_twice.early-cse(ptr noundef %p, ptr noundef %q) {
entry:
  %0 = load i32, ptr %q, align 4
  %arrayidx1 = getelementptr inbounds i32, ptr %p, i64 1
  store i32 %0, ptr %arrayidx1, align 4
  %arrayidx2 = getelementptr inbounds i32, ptr %q, i64 1
  %1 = load i32, ptr %arrayidx2, align 4
  store i32 %1, ptr %p, align 4
  %2 = load i32, ptr %arrayidx2, align 4
  store i32 %2, ptr %arrayidx1, align 4
  ret void
}

define void @store_after_compare.early-cse(ptr noundef %p, ptr noundef %q) {
entry:
  %0 = load i8, ptr %p, align 1
  %conv = zext i8 %0 to i32
  %1 = load i8, ptr %q, align 1
  %conv1 = zext i8 %1 to i32
  %cmp = icmp ne i32 %conv, %conv1
  br i1 %cmp, label %if.then, label %if.end

if.then:
  store i8 %1, ptr %p, align 1
  br label %if.end

if.end:
  ret void
}

define void @stored_back.early-cse(ptr noundef %p, ptr noundef %q) {
entry:
  %0 = load i32, ptr %p, align 4
  %1 = load i32, ptr %q, align 4
  ret void
}

define i32 @sum_both_twice.early-cse(ptr noundef %p, ptr noundef %q) {
entry:
  %0 = load i32, ptr %p, align 4
  %1 = load i32, ptr %q, align 4
  %add = add i32 %0, %1
  %mul = mul i32 %add, 3
  %add2 = add i32 %mul, %add
  ret i32 %add2
}

define i32 @load_then_index.early-cse(ptr noundef %p, ptr noundef %q) {
entry:
  %0 = load i32, ptr %q, align 4
  %and = and i32 %0, 1
  %idxprom = zext i32 %and to i64
  %arrayidx = getelementptr inbounds i32, ptr %p, i64 %idxprom
  %1 = load i32, ptr %arrayidx, align 4
  %add = add i32 %1, %1
  ret i32 %add
}

define i32 @index_after_store.early-cse(ptr noundef %p, ptr noundef %q, i32 noundef %x) {
entry:
  %0 = load i8, ptr %q, align 1
  %conv = zext i8 %0 to i32
  %and = and i32 %conv, 1
  %idxprom = zext i32 %and to i64
  %arrayidx = getelementptr inbounds i32, ptr %p, i64 %idxprom
  store i32 %x, ptr %arrayidx, align 4
  %add = add i32 %x, %x
  ret i32 %add
}

define void @overwritten_wider.early-cse(ptr noundef %p, ptr noundef %q) {
entry:
  store i8 1, ptr %p, align 1
  %arrayidx1 = getelementptr inbounds i8, ptr %p, i64 1
  store i8 2, ptr %arrayidx1, align 1
  store i16 772, ptr %p, align 2
  store i8 5, ptr %q, align 1
  ret void
}

define i64 @wide_by_parts.early-cse(ptr %p, ptr %q) {
  %g = getelementptr i8, ptr %p, i64 4
  %a = load i32, ptr %p, align 4
  %b = load i32, ptr %g, align 4
  store i32 %a, ptr %q, align 4
  %d = zext i32 %a to i64
  %e = zext i32 %b to i64
  %f = shl i64 %e, 32
  %h = or i64 %f, %d
  ret i64 %h
}

define zeroext i8 @constant_in_local.early-cse(ptr noundef %p, ptr noundef %q) {
entry:
  br i1 false, label %if.then, label %if.end

if.then:
  %0 = load i8, ptr %q, align 1
  store i8 %0, ptr %p, align 1
  br label %if.end

if.end:
  store i8 4, ptr %q, align 1
  ret i8 6
}

define ptr @pointer_twice.early-cse(ptr noundef %p, ptr noundef %q) {
entry:
  %0 = load ptr, ptr %p, align 8
  %cmp = icmp eq ptr %0, %q
  br i1 %cmp, label %if.then, label %if.end

if.then:
  br label %return

if.end:
  br label %return

return:
  %retval.0 = phi ptr [ %0, %if.then ], [ %0, %if.end ]
  ret ptr %retval.0
}

define zeroext i8 @constant_after_test.early-cse(ptr noundef %p, ptr noundef %q, i8 noundef zeroext %x) {
entry:
  %conv = zext i8 %x to i32
  %cmp = icmp eq i32 %conv, 3
  br i1 %cmp, label %if.then, label %if.end

if.then:
  %add = add nsw i32 %conv, 1
  %conv3 = trunc i32 %add to i8
  store i8 %conv3, ptr %p, align 1
  %mul = mul nsw i32 %conv, 2
  %conv5 = trunc i32 %mul to i8
  br label %return

if.end:
  store i8 %x, ptr %q, align 1
  br label %return

return:
  %retval.0 = phi i8 [ %conv5, %if.then ], [ 0, %if.end ]
  ret i8 %retval.0
}

define void @fill_invariant.early-cse(ptr noundef %p, i8 noundef zeroext %x, ptr noundef %q) {
entry:
  br label %for.cond

for.cond:
  %i.0 = phi i8 [ 0, %entry ], [ %inc, %for.inc ]
  %conv = zext i8 %i.0 to i32
  %cmp = icmp slt i32 %conv, 3
  br i1 %cmp, label %for.body, label %for.end

for.body:
  %conv2 = zext i8 %x to i32
  %mul = mul nsw i32 %conv2, %conv2
  %add = add nsw i32 %mul, 3
  %conv4 = trunc i32 %add to i8
  %idxprom = zext i8 %i.0 to i64
  %arrayidx = getelementptr inbounds i8, ptr %p, i64 %idxprom
  store i8 %conv4, ptr %arrayidx, align 1
  br label %for.inc

for.inc:
  %inc = add i8 %i.0, 1
  br label %for.cond

for.end:
  store i8 %x, ptr %q, align 1
  ret void
}

define void @copy_bytes.early-cse(ptr noundef %p, ptr noundef %q) {
entry:
  br label %for.cond

for.cond:
  %i.0 = phi i8 [ 0, %entry ], [ %inc, %for.inc ]
  %conv = zext i8 %i.0 to i32
  %cmp = icmp slt i32 %conv, 3
  br i1 %cmp, label %for.body, label %for.end

for.body:
  %idxprom = zext i8 %i.0 to i64
  %arrayidx = getelementptr inbounds i8, ptr %q, i64 %idxprom
  %0 = load i8, ptr %arrayidx, align 1
  %arrayidx3 = getelementptr inbounds i8, ptr %p, i64 %idxprom
  store i8 %0, ptr %arrayidx3, align 1
  br label %for.inc

for.inc:
  %inc = add i8 %i.0, 1
  br label %for.cond

for.end:
  ret void
}

define zeroext i8 @same_bytes.early-cse(ptr noundef %p, ptr noundef %q) {
entry:
  br label %for.cond

for.cond:
  %i.0 = phi i8 [ 0, %entry ], [ %inc, %for.inc ]
  %conv = zext i8 %i.0 to i32
  %cmp = icmp slt i32 %conv, 3
  br i1 %cmp, label %for.body, label %for.end

for.body:
  %idxprom = zext i8 %i.0 to i64
  %arrayidx = getelementptr inbounds i8, ptr %p, i64 %idxprom
  %0 = load i8, ptr %arrayidx, align 1
  %conv2 = zext i8 %0 to i32
  %arrayidx4 = getelementptr inbounds i8, ptr %q, i64 %idxprom
  %1 = load i8, ptr %arrayidx4, align 1
  %conv5 = zext i8 %1 to i32
  %cmp6 = icmp ne i32 %conv2, %conv5
  br i1 %cmp6, label %if.then, label %if.end

if.then:
  br label %return

if.end:
  br label %for.inc

for.inc:
  %inc = add i8 %i.0, 1
  br label %for.cond

for.end:
  br label %return

return:
  %retval.0 = phi i8 [ 0, %if.then ], [ 1, %for.end ]
  ret i8 %retval.0
}

define i32 @nested_tests.early-cse(ptr noundef %p, ptr noundef %q, i1 noundef zeroext %c, i1 noundef zeroext %d) {
entry:
  %storedv = zext i1 %c to i8
  %storedv1 = zext i1 %d to i8
  br i1 %c, label %if.then, label %if.else4

if.then:
  br i1 %d, label %if.then3, label %if.else

if.then3:
  store i32 1, ptr %p, align 4
  br label %if.end

if.else:
  store i32 1, ptr %q, align 4
  br label %if.end

if.end:
  br label %if.end9

if.else4:
  br i1 %d, label %if.then6, label %if.else7

if.then6:
  store i32 1, ptr %p, align 4
  br label %if.end8

if.else7:
  store i32 1, ptr %q, align 4
  br label %if.end8

if.end8:
  br label %if.end9

if.end9:
  %0 = load i32, ptr %p, align 4
  ret i32 %0
}

define void @conditional_stores.early-cse(ptr noundef %p, i1 noundef zeroext %c, i1 noundef zeroext %d, ptr noundef %q) {
entry:
  %storedv = zext i1 %c to i8
  %storedv1 = zext i1 %d to i8
  br i1 %c, label %if.then, label %if.end

if.then:
  store i32 1, ptr %p, align 4
  br label %if.end

if.end:
  br i1 %d, label %if.then3, label %if.end4

if.then3:
  store i32 2, ptr %p, align 4
  br label %if.end4

if.end4:
  store i32 0, ptr %q, align 4
  ret void
}
