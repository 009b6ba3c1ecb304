; Functions over memory, before what LLVM 19.1.7 made of them by gvn, early-cse and gvn-hoist; the name's last part is the pass.

define i32 @arms_load_both.gvn-hoist(ptr noundef %p, ptr noundef %q, i1 noundef zeroext %c) {
entry:
  %storedv = zext i1 %c to i8
  %loadedv = trunc i8 %storedv to i1
  br i1 %loadedv, label %if.then, label %if.end

if.then:
  %0 = load i32, ptr %p, align 4
  %1 = load i32, ptr %q, align 4
  %add = add i32 %0, %1
  br label %return

if.end:
  %2 = load i32, ptr %p, align 4
  %3 = load i32, ptr %q, align 4
  %sub = sub i32 %2, %3
  br label %return

return:
  %retval.0 = phi i32 [ %add, %if.then ], [ %sub, %if.end ]
  ret i32 %retval.0
}

define i32 @nested_tests.gvn-hoist(ptr noundef %p, ptr noundef %q, i1 noundef zeroext %c, i1 noundef zeroext %d) {
entry:
  %storedv = zext i1 %c to i8
  %storedv1 = zext i1 %d to i8
  %loadedv = trunc i8 %storedv to i1
  br i1 %loadedv, label %if.then, label %if.else4

if.then:
  %loadedv2 = trunc i8 %storedv1 to i1
  br i1 %loadedv2, label %if.then3, label %if.else

if.then3:
  store i32 1, ptr %p, align 4
  br label %if.end

if.else:
  store i32 1, ptr %q, align 4
  br label %if.end

if.end:
  br label %if.end9

if.else4:
  %loadedv5 = trunc i8 %storedv1 to i1
  br i1 %loadedv5, label %if.then6, label %if.else7

if.then6:
  store i32 1, ptr %p, align 4
  br label %if.end8

if.else7:
  store i32 1, ptr %q, align 4
  br label %if.end8

if.end8:
  br label %if.end9

if.end9:
  %0 = load i32, ptr %p, align 4
  ret i32 %0
}

define void @negated_twice.gvn(ptr noundef %p, ptr noundef %q, i1 noundef zeroext %c) {
entry:
  %storedv = zext i1 %c to i8
  %loadedv = trunc i8 %storedv to i1
  %lnot = xor i1 %loadedv, true
  %storedv1 = zext i1 %lnot to i8
  %loadedv2 = trunc i8 %storedv1 to i1
  br i1 %loadedv2, label %if.else, label %if.then

if.then:
  %0 = load i8, ptr %q, align 1
  store i8 %0, ptr %p, align 1
  br label %if.end

if.else:
  store i8 1, ptr %q, align 1
  br label %if.end

if.end:
  ret void
}

define i32 @local_of_pointers.gvn(ptr noundef %p, ptr noundef %q, i1 noundef zeroext %c) {
entry:
  %t = alloca [2 x ptr], align 16
  %storedv = zext i1 %c to i8
  %arrayidx = getelementptr inbounds [2 x ptr], ptr %t, i64 0, i64 0
  store ptr %p, ptr %arrayidx, align 16
  %arrayidx1 = getelementptr inbounds [2 x ptr], ptr %t, i64 0, i64 1
  store ptr %q, ptr %arrayidx1, align 8
  %arrayidx2 = getelementptr inbounds [2 x ptr], ptr %t, i64 0, i64 0
  %0 = load ptr, ptr %arrayidx2, align 16
  store i32 4, ptr %0, align 4
  %loadedv = trunc i8 %storedv to i1
  %idxprom = zext i1 %loadedv to i64
  %arrayidx3 = getelementptr inbounds [2 x ptr], ptr %t, i64 0, i64 %idxprom
  %1 = load ptr, ptr %arrayidx3, align 8
  %2 = load i32, ptr %1, align 4
  ret i32 %2
}

define i32 @test_again.gvn(ptr noundef %p, ptr noundef %q, i1 noundef zeroext %c) {
entry:
  %storedv = zext i1 %c to i8
  %loadedv = trunc i8 %storedv to i1
  br i1 %loadedv, label %if.then, label %if.end

if.then:
  %0 = load i32, ptr %p, align 4
  br label %if.end

if.end:
  %r.0 = phi i32 [ %0, %if.then ], [ 0, %entry ]
  store i32 %r.0, ptr %q, align 4
  %loadedv1 = trunc i8 %storedv to i1
  br i1 %loadedv1, label %if.then2, label %if.end3

if.then2:
  %1 = load i32, ptr %p, align 4
  %add = add i32 %r.0, %1
  br label %if.end3

if.end3:
  %r.1 = phi i32 [ %add, %if.then2 ], [ %r.0, %if.end ]
  ret i32 %r.1
}

define void @store_two_exchanged.gvn(ptr noundef %p, ptr noundef %q, i1 noundef zeroext %c, i32 noundef %x) {
entry:
  %storedv = zext i1 %c to i8
  %loadedv = trunc i8 %storedv to i1
  br i1 %loadedv, label %if.then, label %if.else

if.then:
  store i32 %x, ptr %p, align 4
  store i32 %x, ptr %q, align 4
  br label %if.end

if.else:
  store i32 %x, ptr %q, align 4
  store i32 %x, ptr %p, align 4
  br label %if.end

if.end:
  ret void
}

define i64 @load_wide_twice.gvn(ptr noundef %p, ptr noundef %q, i1 noundef zeroext %c) {
entry:
  %storedv = zext i1 %c to i8
  %0 = load i64, ptr %p, align 8
  %loadedv = trunc i8 %storedv to i1
  br i1 %loadedv, label %if.then, label %if.end

if.then:
  %1 = load i64, ptr %q, align 8
  %add = add i64 %0, %1
  br label %if.end

if.end:
  %a.0 = phi i64 [ %add, %if.then ], [ %0, %entry ]
  %2 = load i64, ptr %p, align 8
  %sub = sub i64 %a.0, %2
  ret i64 %sub
}

define void @pointers_exchanged_twice.gvn(ptr noundef %p, ptr noundef %q) {
entry:
  %0 = load ptr, ptr %p, align 8
  %1 = load ptr, ptr %q, align 8
  store ptr %1, ptr %p, align 8
  store ptr %0, ptr %q, align 8
  %2 = load ptr, ptr %p, align 8
  %3 = load ptr, ptr %q, align 8
  store ptr %3, ptr %p, align 8
  store ptr %2, ptr %q, align 8
  ret void
}

define void @store_in_arm_after.gvn(ptr noundef %p, ptr noundef %q, i1 noundef zeroext %c) {
entry:
  %storedv = zext i1 %c to i8
  store i32 1, ptr %p, align 4
  %loadedv = trunc i8 %storedv to i1
  br i1 %loadedv, label %if.then, label %if.end

if.then:
  store i32 2, ptr %p, align 4
  br label %if.end

if.end:
  store i32 3, ptr %q, align 4
  ret void
}

define void @pair_of_locals.gvn(ptr noundef %p, ptr noundef %q, i1 noundef zeroext %c) {
entry:
  %storedv = zext i1 %c to i8
  %0 = load i8, ptr %p, align 1
  %1 = load i8, ptr %q, align 1
  %loadedv = trunc i8 %storedv to i1
  br i1 %loadedv, label %if.then, label %if.end

if.then:
  br label %if.end

if.end:
  %t.sroa.0.0 = phi i8 [ %1, %if.then ], [ %0, %entry ]
  store i8 %t.sroa.0.0, ptr %p, align 1
  %conv = zext i8 %t.sroa.0.0 to i32
  %conv7 = zext i8 %1 to i32
  %add = add nsw i32 %conv, %conv7
  %conv8 = trunc i32 %add to i8
  store i8 %conv8, ptr %q, align 1
  ret void
}

define i32 @pointer_of_arm.gvn(ptr noundef %p, ptr noundef %q, ptr noundef %r, i1 noundef zeroext %c) {
entry:
  %storedv = zext i1 %c to i8
  %loadedv = trunc i8 %storedv to i1
  br i1 %loadedv, label %if.then, label %if.else

if.then:
  store i32 99, ptr %r, align 4
  %0 = load i32, ptr %p, align 4
  %1 = load i32, ptr %q, align 4
  %cmp = icmp ult i32 %0, %1
  br i1 %cmp, label %cond.true, label %cond.false

cond.true:
  br label %cond.end

cond.false:
  br label %cond.end

cond.end:
  %cond = phi ptr [ %p, %cond.true ], [ %q, %cond.false ]
  br label %if.end

if.else:
  br label %if.end

if.end:
  %s.0 = phi ptr [ %cond, %cond.end ], [ %p, %if.else ]
  %2 = load i32, ptr %s.0, align 4
  ret i32 %2
}

define i32 @partly_there.gvn(ptr noundef %p, ptr noundef %q, i1 noundef zeroext %c) {
entry:
  %storedv = zext i1 %c to i8
  %loadedv = trunc i8 %storedv to i1
  br i1 %loadedv, label %if.then, label %if.end

if.then:
  %0 = load i32, ptr %p, align 4
  store i32 %0, ptr %q, align 4
  br label %if.end

if.end:
  %r.0 = phi i32 [ %0, %if.then ], [ 0, %entry ]
  %1 = load i32, ptr %p, align 4
  %add = add i32 %r.0, %1
  ret i32 %add
}

define i32 @partly_there_other.gvn(ptr noundef %p, ptr noundef %q, i1 noundef zeroext %c) {
entry:
  %storedv = zext i1 %c to i8
  %loadedv = trunc i8 %storedv to i1
  br i1 %loadedv, label %if.then, label %if.else

if.then:
  store i32 9, ptr %p, align 4
  br label %if.end

if.else:
  store i32 4, ptr %q, align 4
  br label %if.end

if.end:
  %0 = load i32, ptr %p, align 4
  ret i32 %0
}

define i32 @select_load.gvn(ptr noundef %p, ptr noundef %q, i1 noundef zeroext %c) {
entry:
  %storedv = zext i1 %c to i8
  %loadedv = trunc i8 %storedv to i1
  br i1 %loadedv, label %cond.true, label %cond.false

cond.true:
  br label %cond.end

cond.false:
  br label %cond.end

cond.end:
  %cond = phi ptr [ %p, %cond.true ], [ %q, %cond.false ]
  %0 = load i32, ptr %cond, align 4
  %1 = load i32, ptr %cond, align 4
  %add = add i32 %0, %1
  ret i32 %add
}

define i64 @select_store.gvn(ptr noundef %p, ptr noundef %q, i1 noundef zeroext %c, i64 noundef %x) {
entry:
  %storedv = zext i1 %c to i8
  %loadedv = trunc i8 %storedv to i1
  br i1 %loadedv, label %cond.true, label %cond.false

cond.true:
  br label %cond.end

cond.false:
  br label %cond.end

cond.end:
  %cond = phi ptr [ %p, %cond.true ], [ %q, %cond.false ]
  store i64 %x, ptr %cond, align 8
  %0 = load i64, ptr %cond, align 8
  ret i64 %0
}

define i32 @load_again_after_other_store.gvn(ptr noundef %p, ptr noundef %q, i32 noundef %x) {
entry:
  %0 = load i32, ptr %p, align 4
  store i32 %x, ptr %q, align 4
  %1 = load i32, ptr %q, align 4
  %add = add i32 %0, %1
  %2 = load i32, ptr %p, align 4
  %add1 = add i32 %add, %2
  ret i32 %add1
}

define zeroext i8 @load_bytes_twice.gvn(ptr noundef %p, ptr noundef %q) {
entry:
  %arrayidx = getelementptr inbounds i8, ptr %p, i64 0
  %0 = load i8, ptr %arrayidx, align 1
  %conv = zext i8 %0 to i32
  %arrayidx1 = getelementptr inbounds i8, ptr %q, i64 1
  %1 = load i8, ptr %arrayidx1, align 1
  %conv2 = zext i8 %1 to i32
  %xor = xor i32 %conv, %conv2
  %conv3 = trunc i32 %xor to i8
  %arrayidx4 = getelementptr inbounds i8, ptr %q, i64 1
  %2 = load i8, ptr %arrayidx4, align 1
  %conv5 = zext i8 %2 to i32
  %arrayidx6 = getelementptr inbounds i8, ptr %p, i64 0
  %3 = load i8, ptr %arrayidx6, align 1
  %conv7 = zext i8 %3 to i32
  %xor8 = xor i32 %conv5, %conv7
  %conv9 = trunc i32 %xor8 to i8
  %conv10 = zext i8 %conv3 to i32
  %conv11 = zext i8 %conv9 to i32
  %add = add nsw i32 %conv10, %conv11
  %arrayidx12 = getelementptr inbounds i8, ptr %p, i64 0
  %4 = load i8, ptr %arrayidx12, align 1
  %conv13 = zext i8 %4 to i32
  %add14 = add nsw i32 %add, %conv13
  %conv15 = trunc i32 %add14 to i8
  ret i8 %conv15
}

define zeroext i8 @through_pointer_twice.gvn(ptr noundef %p, ptr noundef %q) {
entry:
  %0 = load ptr, ptr %p, align 8
  %1 = load i8, ptr %0, align 1
  %conv = zext i8 %1 to i32
  %2 = load ptr, ptr %q, align 8
  %3 = load i8, ptr %2, align 1
  %conv1 = zext i8 %3 to i32
  %add = add nsw i32 %conv, %conv1
  %4 = load ptr, ptr %p, align 8
  %5 = load i8, ptr %4, align 1
  %conv2 = zext i8 %5 to i32
  %add3 = add nsw i32 %add, %conv2
  %conv4 = trunc i32 %add3 to i8
  ret i8 %conv4
}

define zeroext i8 @store_forwarded_bytes.gvn(ptr noundef %p, ptr noundef %q, i8 noundef zeroext %x) {
entry:
  %arrayidx = getelementptr inbounds i8, ptr %p, i64 1
  store i8 %x, ptr %arrayidx, align 1
  %arrayidx1 = getelementptr inbounds i8, ptr %p, i64 1
  %0 = load i8, ptr %arrayidx1, align 1
  %arrayidx2 = getelementptr inbounds i8, ptr %q, i64 0
  store i8 %0, ptr %arrayidx2, align 1
  %arrayidx3 = getelementptr inbounds i8, ptr %q, i64 0
  %1 = load i8, ptr %arrayidx3, align 1
  %conv = zext i8 %1 to i32
  %arrayidx4 = getelementptr inbounds i8, ptr %p, i64 1
  %2 = load i8, ptr %arrayidx4, align 1
  %conv5 = zext i8 %2 to i32
  %add = add nsw i32 %conv, %conv5
  %conv6 = trunc i32 %add to i8
  ret i8 %conv6
}

define i32 @compared_twice.gvn(ptr noundef %p, ptr noundef %q) {
entry:
  %0 = load i32, ptr %p, align 4
  %1 = load i32, ptr %q, align 4
  %cmp = icmp slt i32 %0, %1
  br i1 %cmp, label %if.then, label %if.end

if.then:
  br label %return

if.end:
  %2 = load i32, ptr %p, align 4
  %3 = load i32, ptr %q, align 4
  %cmp1 = icmp sgt i32 %2, %3
  br i1 %cmp1, label %if.then2, label %if.end3

if.then2:
  br label %return

if.end3:
  %4 = load i32, ptr %p, align 4
  %5 = load i32, ptr %q, align 4
  %cmp4 = icmp eq i32 %4, %5
  %conv = zext i1 %cmp4 to i32
  br label %return

return:
  %retval.0 = phi i32 [ 1, %if.then ], [ 2, %if.then2 ], [ %conv, %if.end3 ]
  ret i32 %retval.0
}

define void @field_written_twice.gvn(ptr noundef %p, ptr noundef %q) {
entry:
  %arrayidx = getelementptr inbounds i32, ptr %q, i64 0
  %0 = load i32, ptr %arrayidx, align 4
  %arrayidx1 = getelementptr inbounds i32, ptr %p, i64 1
  store i32 %0, ptr %arrayidx1, align 4
  %arrayidx2 = getelementptr inbounds i32, ptr %q, i64 1
  %1 = load i32, ptr %arrayidx2, align 4
  %arrayidx3 = getelementptr inbounds i32, ptr %p, i64 0
  store i32 %1, ptr %arrayidx3, align 4
  %arrayidx4 = getelementptr inbounds i32, ptr %q, i64 1
  %2 = load i32, ptr %arrayidx4, align 4
  %arrayidx5 = getelementptr inbounds i32, ptr %p, i64 1
  store i32 %2, ptr %arrayidx5, align 4
  ret void
}

define void @copy_of_copy.gvn(ptr noundef %p, ptr noundef %q, ptr noundef %r) {
entry:
  %0 = load i64, ptr %p, align 8
  store i64 %0, ptr %q, align 8
  %1 = load i64, ptr %q, align 8
  store i64 %1, ptr %r, align 8
  %2 = load i64, ptr %p, align 8
  store i64 %2, ptr %q, align 8
  ret void
}

define i32 @local_pointer.gvn(ptr noundef %p, ptr noundef %q, i1 noundef zeroext %c) {
entry:
  %storedv = zext i1 %c to i8
  %loadedv = trunc i8 %storedv to i1
  br i1 %loadedv, label %if.then, label %if.end

if.then:
  br label %if.end

if.end:
  %s.0 = phi ptr [ %q, %if.then ], [ %p, %entry ]
  store i32 8, ptr %s.0, align 4
  %0 = load i32, ptr %p, align 4
  ret i32 %0
}

define i32 @least_of_three.gvn(ptr noundef %p, ptr noundef %q, ptr noundef %r) {
entry:
  %0 = load i32, ptr %p, align 4
  %1 = load i32, ptr %q, align 4
  %cmp = icmp ult i32 %1, %0
  br i1 %cmp, label %if.then, label %if.end

if.then:
  %2 = load i32, ptr %q, align 4
  br label %if.end

if.end:
  %a.0 = phi i32 [ %2, %if.then ], [ %0, %entry ]
  %3 = load i32, ptr %r, align 4
  %cmp1 = icmp ult i32 %3, %a.0
  br i1 %cmp1, label %if.then2, label %if.end3

if.then2:
  %4 = load i32, ptr %r, align 4
  br label %if.end3

if.end3:
  %a.1 = phi i32 [ %4, %if.then2 ], [ %a.0, %if.end ]
  ret i32 %a.1
}

define zeroext i16 @bytes_joined.gvn(ptr noundef %p, ptr noundef %q) {
entry:
  %arrayidx = getelementptr inbounds i8, ptr %p, i64 0
  %0 = load i8, ptr %arrayidx, align 1
  %conv = zext i8 %0 to i32
  %arrayidx1 = getelementptr inbounds i8, ptr %p, i64 1
  %1 = load i8, ptr %arrayidx1, align 1
  %conv2 = zext i8 %1 to i16
  %conv3 = zext i16 %conv2 to i32
  %shl = shl i32 %conv3, 8
  %or = or i32 %conv, %shl
  %conv4 = trunc i32 %or to i16
  store i8 3, ptr %q, align 1
  %arrayidx5 = getelementptr inbounds i8, ptr %p, i64 0
  %2 = load i8, ptr %arrayidx5, align 1
  %conv6 = zext i8 %2 to i32
  %arrayidx7 = getelementptr inbounds i8, ptr %p, i64 1
  %3 = load i8, ptr %arrayidx7, align 1
  %conv8 = zext i8 %3 to i16
  %conv9 = zext i16 %conv8 to i32
  %shl10 = shl i32 %conv9, 8
  %or11 = or i32 %conv6, %shl10
  %conv12 = trunc i32 %or11 to i16
  %conv13 = zext i16 %conv4 to i32
  %conv14 = zext i16 %conv12 to i32
  %xor = xor i32 %conv13, %conv14
  %conv15 = trunc i32 %xor to i16
  ret i16 %conv15
}

define i32 @store_forwarded.gvn(ptr noundef %p, ptr noundef %q, i32 noundef %x) {
entry:
  store i32 %x, ptr %p, align 4
  %0 = load i32, ptr %p, align 4
  %add = add i32 %0, 1
  store i32 %add, ptr %q, align 4
  %1 = load i32, ptr %q, align 4
  ret i32 %1
}

define void @store_larger.early-cse(ptr noundef %p, ptr noundef %q) {
entry:
  %0 = load i32, ptr %p, align 4
  %1 = load i32, ptr %q, align 4
  %cmp = icmp slt i32 %0, %1
  br i1 %cmp, label %if.then, label %if.end

if.then:
  %2 = load i32, ptr %q, align 4
  store i32 %2, ptr %p, align 4
  br label %if.end

if.end:
  ret void
}

define void @three_rotated.early-cse(ptr noundef %p, ptr noundef %q, ptr noundef %r) {
entry:
  %0 = load i8, ptr %p, align 1
  %1 = load i8, ptr %q, align 1
  store i8 %1, ptr %p, align 1
  %2 = load i8, ptr %r, align 1
  store i8 %2, ptr %q, align 1
  store i8 %0, ptr %r, align 1
  %3 = load i8, ptr %p, align 1
  store i8 %3, ptr %p, align 1
  ret void
}

define void @field_written_twice.early-cse(ptr noundef %p, ptr noundef %q) {
entry:
  %arrayidx = getelementptr inbounds i32, ptr %q, i64 0
  %0 = load i32, ptr %arrayidx, align 4
  %arrayidx1 = getelementptr inbounds i32, ptr %p, i64 1
  store i32 %0, ptr %arrayidx1, align 4
  %arrayidx2 = getelementptr inbounds i32, ptr %q, i64 1
  %1 = load i32, ptr %arrayidx2, align 4
  %arrayidx3 = getelementptr inbounds i32, ptr %p, i64 0
  store i32 %1, ptr %arrayidx3, align 4
  %arrayidx4 = getelementptr inbounds i32, ptr %q, i64 1
  %2 = load i32, ptr %arrayidx4, align 4
  %arrayidx5 = getelementptr inbounds i32, ptr %p, i64 1
  store i32 %2, ptr %arrayidx5, align 4
  ret void
}

define void @store_after_compare.early-cse(ptr noundef %p, ptr noundef %q) {
entry:
  %0 = load i8, ptr %p, align 1
  %conv = zext i8 %0 to i32
  %1 = load i8, ptr %q, align 1
  %conv1 = zext i8 %1 to i32
  %cmp = icmp ne i32 %conv, %conv1
  br i1 %cmp, label %if.then, label %if.end

if.then:
  %2 = load i8, ptr %q, align 1
  store i8 %2, ptr %p, align 1
  br label %if.end

if.end:
  ret void
}

define void @stored_back.early-cse(ptr noundef %p, ptr noundef %q) {
entry:
  %0 = load i32, ptr %p, align 4
  %1 = load i32, ptr %q, align 4
  store i32 %1, ptr %q, align 4
  store i32 %0, ptr %p, align 4
  ret void
}

define i32 @sum_both_twice.early-cse(ptr noundef %p, ptr noundef %q) {
entry:
  %0 = load i32, ptr %p, align 4
  %1 = load i32, ptr %q, align 4
  %add = add i32 %0, %1
  %2 = load i32, ptr %p, align 4
  %3 = load i32, ptr %q, align 4
  %add1 = add i32 %2, %3
  %mul = mul i32 %add, 3
  %add2 = add i32 %mul, %add1
  ret i32 %add2
}

define i32 @load_then_index.early-cse(ptr noundef %p, ptr noundef %q) {
entry:
  %0 = load i32, ptr %q, align 4
  %and = and i32 %0, 1
  %idxprom = zext i32 %and to i64
  %arrayidx = getelementptr inbounds i32, ptr %p, i64 %idxprom
  %1 = load i32, ptr %arrayidx, align 4
  %idxprom1 = zext i32 %and to i64
  %arrayidx2 = getelementptr inbounds i32, ptr %p, i64 %idxprom1
  %2 = load i32, ptr %arrayidx2, align 4
  %add = add i32 %1, %2
  ret i32 %add
}

define i32 @index_after_store.early-cse(ptr noundef %p, ptr noundef %q, i32 noundef %x) {
entry:
  %0 = load i8, ptr %q, align 1
  %conv = zext i8 %0 to i32
  %and = and i32 %conv, 1
  %idxprom = zext i32 %and to i64
  %arrayidx = getelementptr inbounds i32, ptr %p, i64 %idxprom
  store i32 %x, ptr %arrayidx, align 4
  %idxprom1 = zext i32 %and to i64
  %arrayidx2 = getelementptr inbounds i32, ptr %p, i64 %idxprom1
  %1 = load i32, ptr %arrayidx2, align 4
  %add = add i32 %1, %x
  ret i32 %add
}

define void @overwritten_wider.early-cse(ptr noundef %p, ptr noundef %q) {
entry:
  %arrayidx = getelementptr inbounds i8, ptr %p, i64 0
  store i8 1, ptr %arrayidx, align 1
  %arrayidx1 = getelementptr inbounds i8, ptr %p, i64 1
  store i8 2, ptr %arrayidx1, align 1
  store i16 772, ptr %p, align 2
  store i8 5, ptr %q, align 1
  ret void
}

define i64 @wide_by_parts.early-cse(ptr %p, ptr %q) {
  %g = getelementptr i8, ptr %p, i64 4
  %a = load i32, ptr %p, align 4
  %b = load i32, ptr %g, align 4
  store i32 %a, ptr %q, align 4
  %c = load i32, ptr %q, align 4
  %d = zext i32 %c to i64
  %e = zext i32 %b to i64
  %f = shl i64 %e, 32
  %h = or i64 %f, %d
  ret i64 %h
}

define zeroext i8 @constant_in_local.early-cse(ptr noundef %p, ptr noundef %q) {
entry:
  %conv = zext i8 3 to i32
  %cmp = icmp sgt i32 %conv, 5
  br i1 %cmp, label %if.then, label %if.end

if.then:
  %0 = load i8, ptr %q, align 1
  store i8 %0, ptr %p, align 1
  br label %if.end

if.end:
  %conv2 = zext i8 3 to i32
  %add = add nsw i32 %conv2, 1
  %conv3 = trunc i32 %add to i8
  store i8 %conv3, ptr %q, align 1
  %conv4 = zext i8 3 to i32
  %mul = mul nsw i32 %conv4, 2
  %conv5 = trunc i32 %mul to i8
  ret i8 %conv5
}

define ptr @pointer_twice.early-cse(ptr noundef %p, ptr noundef %q) {
entry:
  %0 = load ptr, ptr %p, align 8
  %cmp = icmp eq ptr %0, %q
  br i1 %cmp, label %if.then, label %if.end

if.then:
  br label %return

if.end:
  %1 = load ptr, ptr %p, align 8
  br label %return

return:
  %retval.0 = phi ptr [ %0, %if.then ], [ %1, %if.end ]
  ret ptr %retval.0
}

define zeroext i8 @constant_after_test.early-cse(ptr noundef %p, ptr noundef %q, i8 noundef zeroext %x) {
entry:
  %conv = zext i8 %x to i32
  %cmp = icmp eq i32 %conv, 3
  br i1 %cmp, label %if.then, label %if.end

if.then:
  %conv2 = zext i8 %x to i32
  %add = add nsw i32 %conv2, 1
  %conv3 = trunc i32 %add to i8
  store i8 %conv3, ptr %p, align 1
  %conv4 = zext i8 %x to i32
  %mul = mul nsw i32 %conv4, 2
  %conv5 = trunc i32 %mul to i8
  br label %return

if.end:
  store i8 %x, ptr %q, align 1
  br label %return

return:
  %retval.0 = phi i8 [ %conv5, %if.then ], [ 0, %if.end ]
  ret i8 %retval.0
}

define void @fill_invariant.early-cse(ptr noundef %p, i8 noundef zeroext %x, ptr noundef %q) {
entry:
  br label %for.cond

for.cond:
  %i.0 = phi i8 [ 0, %entry ], [ %inc, %for.inc ]
  %conv = zext i8 %i.0 to i32
  %cmp = icmp slt i32 %conv, 3
  br i1 %cmp, label %for.body, label %for.end

for.body:
  %conv2 = zext i8 %x to i32
  %conv3 = zext i8 %x to i32
  %mul = mul nsw i32 %conv2, %conv3
  %add = add nsw i32 %mul, 3
  %conv4 = trunc i32 %add to i8
  %idxprom = zext i8 %i.0 to i64
  %arrayidx = getelementptr inbounds i8, ptr %p, i64 %idxprom
  store i8 %conv4, ptr %arrayidx, align 1
  br label %for.inc

for.inc:
  %inc = add i8 %i.0, 1
  br label %for.cond

for.end:
  store i8 %x, ptr %q, align 1
  ret void
}

define void @copy_bytes.early-cse(ptr noundef %p, ptr noundef %q) {
entry:
  br label %for.cond

for.cond:
  %i.0 = phi i8 [ 0, %entry ], [ %inc, %for.inc ]
  %conv = zext i8 %i.0 to i32
  %cmp = icmp slt i32 %conv, 3
  br i1 %cmp, label %for.body, label %for.end

for.body:
  %idxprom = zext i8 %i.0 to i64
  %arrayidx = getelementptr inbounds i8, ptr %q, i64 %idxprom
  %0 = load i8, ptr %arrayidx, align 1
  %idxprom2 = zext i8 %i.0 to i64
  %arrayidx3 = getelementptr inbounds i8, ptr %p, i64 %idxprom2
  store i8 %0, ptr %arrayidx3, align 1
  br label %for.inc

for.inc:
  %inc = add i8 %i.0, 1
  br label %for.cond

for.end:
  ret void
}

define zeroext i8 @same_bytes.early-cse(ptr noundef %p, ptr noundef %q) {
entry:
  br label %for.cond

for.cond:
  %i.0 = phi i8 [ 0, %entry ], [ %inc, %for.inc ]
  %conv = zext i8 %i.0 to i32
  %cmp = icmp slt i32 %conv, 3
  br i1 %cmp, label %for.body, label %for.end

for.body:
  %idxprom = zext i8 %i.0 to i64
  %arrayidx = getelementptr inbounds i8, ptr %p, i64 %idxprom
  %0 = load i8, ptr %arrayidx, align 1
  %conv2 = zext i8 %0 to i32
  %idxprom3 = zext i8 %i.0 to i64
  %arrayidx4 = getelementptr inbounds i8, ptr %q, i64 %idxprom3
  %1 = load i8, ptr %arrayidx4, align 1
  %conv5 = zext i8 %1 to i32
  %cmp6 = icmp ne i32 %conv2, %conv5
  br i1 %cmp6, label %if.then, label %if.end

if.then:
  br label %return

if.end:
  br label %for.inc

for.inc:
  %inc = add i8 %i.0, 1
  br label %for.cond

for.end:
  br label %return

return:
  %retval.0 = phi i8 [ 0, %if.then ], [ 1, %for.end ]
  ret i8 %retval.0
}

define i32 @nested_tests.early-cse(ptr noundef %p, ptr noundef %q, i1 noundef zeroext %c, i1 noundef zeroext %d) {
entry:
  %storedv = zext i1 %c to i8
  %storedv1 = zext i1 %d to i8
  %loadedv = trunc i8 %storedv to i1
  br i1 %loadedv, label %if.then, label %if.else4

if.then:
  %loadedv2 = trunc i8 %storedv1 to i1
  br i1 %loadedv2, label %if.then3, label %if.else

if.then3:
  store i32 1, ptr %p, align 4
  br label %if.end

if.else:
  store i32 1, ptr %q, align 4
  br label %if.end

if.end:
  br label %if.end9

if.else4:
  %loadedv5 = trunc i8 %storedv1 to i1
  br i1 %loadedv5, label %if.then6, label %if.else7

if.then6:
  store i32 1, ptr %p, align 4
  br label %if.end8

if.else7:
  store i32 1, ptr %q, align 4
  br label %if.end8

if.end8:
  br label %if.end9

if.end9:
  %0 = load i32, ptr %p, align 4
  ret i32 %0
}

define void @conditional_stores.early-cse(ptr noundef %p, i1 noundef zeroext %c, i1 noundef zeroext %d, ptr noundef %q) {
entry:
  %storedv = zext i1 %c to i8
  %storedv1 = zext i1 %d to i8
  %loadedv = trunc i8 %storedv to i1
  br i1 %loadedv, label %if.then, label %if.end

if.then:
  store i32 1, ptr %p, align 4
  br label %if.end

if.end:
  %loadedv2 = trunc i8 %storedv1 to i1
  br i1 %loadedv2, label %if.then3, label %if.end4

if.then3:
  store i32 2, ptr %p, align 4
  br label %if.end4

if.end4:
  store i32 0, ptr %q, align 4
  ret void
}
