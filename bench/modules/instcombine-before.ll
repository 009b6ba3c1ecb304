; Functions over memory, before what LLVM 19.1.7 made of them by instcombine; the name's last part is the pass.

define i32 @three_copied.instcombine(ptr noundef %p, ptr noundef %q, ptr noundef %r) {
entry:
  %0 = load i32, ptr %q, align 4
  store i32 %0, ptr %p, align 4
  %1 = load i32, ptr %p, align 4
  store i32 %1, ptr %r, align 4
  %2 = load i32, ptr %r, align 4
  ret i32 %2
}

define void @store_after_compare.instcombine(ptr noundef %p, ptr noundef %q) {
entry:
  %0 = load i8, ptr %p, align 1
  %conv = zext i8 %0 to i32
  %1 = load i8, ptr %q, align 1
  %conv1 = zext i8 %1 to i32
  %cmp = icmp ne i32 %conv, %conv1
  br i1 %cmp, label %if.then, label %if.end

if.then:
  %2 = load i8, ptr %q, align 1
  store i8 %2, ptr %p, align 1
  br label %if.end

if.end:
  ret void
}

define zeroext i8 @either_test.instcombine(ptr noundef %p, ptr noundef %q) {
entry:
  %0 = load i8, ptr %p, align 1
  %conv = zext i8 %0 to i32
  %cmp = icmp eq i32 %conv, 1
  br i1 %cmp, label %if.then, label %lor.lhs.false

lor.lhs.false:
  %1 = load i8, ptr %q, align 1
  %conv2 = zext i8 %1 to i32
  %cmp3 = icmp eq i32 %conv2, 1
  br i1 %cmp3, label %if.then, label %if.end

if.then:
  store i8 0, ptr %p, align 1
  store i8 0, ptr %q, align 1
  br label %if.end

if.end:
  %2 = load i8, ptr %p, align 1
  ret i8 %2
}

define i32 @sum_both_twice.instcombine(ptr noundef %p, ptr noundef %q) {
entry:
  %0 = load i32, ptr %p, align 4
  %1 = load i32, ptr %q, align 4
  %add = add i32 %0, %1
  %2 = load i32, ptr %p, align 4
  %3 = load i32, ptr %q, align 4
  %add1 = add i32 %2, %3
  %mul = mul i32 %add, 3
  %add2 = add i32 %mul, %add1
  ret i32 %add2
}

define i32 @load_then_index.instcombine(ptr noundef %p, ptr noundef %q) {
entry:
  %0 = load i32, ptr %q, align 4
  %and = and i32 %0, 1
  %idxprom = zext i32 %and to i64
  %arrayidx = getelementptr inbounds i32, ptr %p, i64 %idxprom
  %1 = load i32, ptr %arrayidx, align 4
  %idxprom1 = zext i32 %and to i64
  %arrayidx2 = getelementptr inbounds i32, ptr %p, i64 %idxprom1
  %2 = load i32, ptr %arrayidx2, align 4
  %add = add i32 %1, %2
  ret i32 %add
}

define i32 @index_after_store.instcombine(ptr noundef %p, ptr noundef %q, i32 noundef %x) {
entry:
  %0 = load i8, ptr %q, align 1
  %conv = zext i8 %0 to i32
  %and = and i32 %conv, 1
  %idxprom = zext i32 %and to i64
  %arrayidx = getelementptr inbounds i32, ptr %p, i64 %idxprom
  store i32 %x, ptr %arrayidx, align 4
  %idxprom1 = zext i32 %and to i64
  %arrayidx2 = getelementptr inbounds i32, ptr %p, i64 %idxprom1
  %1 = load i32, ptr %arrayidx2, align 4
  %add = add i32 %1, %x
  ret i32 %add
}

define i64 @wide_by_parts.instcombine(ptr %p, ptr %q) {
  %g = getelementptr i8, ptr %p, i64 4
  %a = load i32, ptr %p, align 4
  %b = load i32, ptr %g, align 4
  store i32 %a, ptr %q, align 4
  %c = load i32, ptr %q, align 4
  %d = zext i32 %c to i64
  %e = zext i32 %b to i64
  %f = shl i64 %e, 32
  %h = or i64 %f, %d
  ret i64 %h
}

define zeroext i8 @constant_in_local.instcombine(ptr noundef %p, ptr noundef %q) {
entry:
  %conv = zext i8 3 to i32
  %cmp = icmp sgt i32 %conv, 5
  br i1 %cmp, label %if.then, label %if.end

if.then:
  %0 = load i8, ptr %q, align 1
  store i8 %0, ptr %p, align 1
  br label %if.end

if.end:
  %conv2 = zext i8 3 to i32
  %add = add nsw i32 %conv2, 1
  %conv3 = trunc i32 %add to i8
  store i8 %conv3, ptr %q, align 1
  %conv4 = zext i8 3 to i32
  %mul = mul nsw i32 %conv4, 2
  %conv5 = trunc i32 %mul to i8
  ret i8 %conv5
}

define void @overwritten.instcombine(ptr noundef %p, ptr noundef %q, i32 noundef %x) {
entry:
  store i32 %x, ptr %p, align 4
  %0 = load i32, ptr %q, align 4
  %add = add i32 %x, %0
  store i32 %add, ptr %p, align 4
  ret void
}

define i8 @gep_of_gep.instcombine(ptr %p, ptr %q, i8 %i) {
  %a = getelementptr i8, ptr %p, i64 1
  %b = getelementptr i8, ptr %a, i64 2
  %v = load i8, ptr %b, align 1
  store i8 %v, ptr %q, align 1
  %c = getelementptr i8, ptr %p, i64 3
  %w = load i8, ptr %c, align 1
  %s = add i8 %w, %v
  ret i8 %s
}

define zeroext i8 @constant_after_test.instcombine(ptr noundef %p, ptr noundef %q, i8 noundef zeroext %x) {
entry:
  %conv = zext i8 %x to i32
  %cmp = icmp eq i32 %conv, 3
  br i1 %cmp, label %if.then, label %if.end

if.then:
  %conv2 = zext i8 %x to i32
  %add = add nsw i32 %conv2, 1
  %conv3 = trunc i32 %add to i8
  store i8 %conv3, ptr %p, align 1
  %conv4 = zext i8 %x to i32
  %mul = mul nsw i32 %conv4, 2
  %conv5 = trunc i32 %mul to i8
  br label %return

if.end:
  store i8 %x, ptr %q, align 1
  br label %return

return:
  %retval.0 = phi i8 [ %conv5, %if.then ], [ 0, %if.end ]
  ret i8 %retval.0
}

define i32 @null_test.instcombine(ptr noundef %p, ptr noundef %q) {
entry:
  %cmp = icmp ne ptr %p, null
  br i1 %cmp, label %if.then, label %if.end

if.then:
  %0 = load i32, ptr %p, align 4
  br label %if.end

if.end:
  %r.0 = phi i32 [ %0, %if.then ], [ 1, %entry ]
  store i32 %r.0, ptr %q, align 4
  ret i32 %r.0
}

define i32 @frozen_argument.instcombine(i32 noundef %x, ptr %p, ptr %q) {
  %f = freeze i32 %x
  %t = icmp eq i32 %f, 3
  br i1 %t, label %a, label %b

a:
  store i32 %f, ptr %p, align 4
  br label %b

b:
  %v = load i32, ptr %q, align 4
  ret i32 %v
}

define i32 @frozen_twice.instcombine(i32 %x, ptr %p, ptr %q) {
  %f = freeze i32 %x
  %g = freeze i32 %f
  %t = icmp ult i32 %g, 3
  br i1 %t, label %a, label %b

a:
  store i32 %g, ptr %p, align 4
  br label %b

b:
  %v = load i32, ptr %q, align 4
  %s = add i32 %v, %f
  ret i32 %s
}

define i32 @nested_tests.instcombine(ptr noundef %p, ptr noundef %q, i1 noundef zeroext %c, i1 noundef zeroext %d) {
entry:
  %storedv = zext i1 %c to i8
  %storedv1 = zext i1 %d to i8
  %loadedv = trunc i8 %storedv to i1
  br i1 %loadedv, label %if.then, label %if.else4

if.then:
  %loadedv2 = trunc i8 %storedv1 to i1
  br i1 %loadedv2, label %if.then3, label %if.else

if.then3:
  store i32 1, ptr %p, align 4
  br label %if.end

if.else:
  store i32 1, ptr %q, align 4
  br label %if.end

if.end:
  br label %if.end9

if.else4:
  %loadedv5 = trunc i8 %storedv1 to i1
  br i1 %loadedv5, label %if.then6, label %if.else7

if.then6:
  store i32 1, ptr %p, align 4
  br label %if.end8

if.else7:
  store i32 1, ptr %q, align 4
  br label %if.end8

if.end8:
  br label %if.end9

if.end9:
  %0 = load i32, ptr %p, align 4
  ret i32 %0
}

define void @negated_twice.instcombine(ptr noundef %p, ptr noundef %q, i1 noundef zeroext %c) {
entry:
  %storedv = zext i1 %c to i8
  %loadedv = trunc i8 %storedv to i1
  %lnot = xor i1 %loadedv, true
  %storedv1 = zext i1 %lnot to i8
  %loadedv2 = trunc i8 %storedv1 to i1
  br i1 %loadedv2, label %if.else, label %if.then

if.then:
  %0 = load i8, ptr %q, align 1
  store i8 %0, ptr %p, align 1
  br label %if.end

if.else:
  store i8 1, ptr %q, align 1
  br label %if.end

if.end:
  ret void
}

define i32 @local_of_pointers.instcombine(ptr noundef %p, ptr noundef %q, i1 noundef zeroext %c) {
entry:
  %t = alloca [2 x ptr], align 16
  %storedv = zext i1 %c to i8
  %arrayidx = getelementptr inbounds [2 x ptr], ptr %t, i64 0, i64 0
  store ptr %p, ptr %arrayidx, align 16
  %arrayidx1 = getelementptr inbounds [2 x ptr], ptr %t, i64 0, i64 1
  store ptr %q, ptr %arrayidx1, align 8
  %arrayidx2 = getelementptr inbounds [2 x ptr], ptr %t, i64 0, i64 0
  %0 = load ptr, ptr %arrayidx2, align 16
  store i32 4, ptr %0, align 4
  %loadedv = trunc i8 %storedv to i1
  %idxprom = zext i1 %loadedv to i64
  %arrayidx3 = getelementptr inbounds [2 x ptr], ptr %t, i64 0, i64 %idxprom
  %1 = load ptr, ptr %arrayidx3, align 8
  %2 = load i32, ptr %1, align 4
  ret i32 %2
}

define i32 @test_again.instcombine(ptr noundef %p, ptr noundef %q, i1 noundef zeroext %c) {
entry:
  %storedv = zext i1 %c to i8
  %loadedv = trunc i8 %storedv to i1
  br i1 %loadedv, label %if.then, label %if.end

if.then:
  %0 = load i32, ptr %p, align 4
  br label %if.end

if.end:
  %r.0 = phi i32 [ %0, %if.then ], [ 0, %entry ]
  store i32 %r.0, ptr %q, align 4
  %loadedv1 = trunc i8 %storedv to i1
  br i1 %loadedv1, label %if.then2, label %if.end3

if.then2:
  %1 = load i32, ptr %p, align 4
  %add = add i32 %r.0, %1
  br label %if.end3

if.end3:
  %r.1 = phi i32 [ %add, %if.then2 ], [ %r.0, %if.end ]
  ret i32 %r.1
}

define void @store_two_exchanged.instcombine(ptr noundef %p, ptr noundef %q, i1 noundef zeroext %c, i32 noundef %x) {
entry:
  %storedv = zext i1 %c to i8
  %loadedv = trunc i8 %storedv to i1
  br i1 %loadedv, label %if.then, label %if.else

if.then:
  store i32 %x, ptr %p, align 4
  store i32 %x, ptr %q, align 4
  br label %if.end

if.else:
  store i32 %x, ptr %q, align 4
  store i32 %x, ptr %p, align 4
  br label %if.end

if.end:
  ret void
}

define i64 @load_wide_twice.instcombine(ptr noundef %p, ptr noundef %q, i1 noundef zeroext %c) {
entry:
  %storedv = zext i1 %c to i8
  %0 = load i64, ptr %p, align 8
  %loadedv = trunc i8 %storedv to i1
  br i1 %loadedv, label %if.then, label %if.end

if.then:
  %1 = load i64, ptr %q, align 8
  %add = add i64 %0, %1
  br label %if.end

if.end:
  %a.0 = phi i64 [ %add, %if.then ], [ %0, %entry ]
  %2 = load i64, ptr %p, align 8
  %sub = sub i64 %a.0, %2
  ret i64 %sub
}

define i32 @pointer_of_arm.instcombine(ptr noundef %p, ptr noundef %q, ptr noundef %r, i1 noundef zeroext %c) {
entry:
  %storedv = zext i1 %c to i8
  %loadedv = trunc i8 %storedv to i1
  br i1 %loadedv, label %if.then, label %if.else

if.then:
  store i32 99, ptr %r, align 4
  %0 = load i32, ptr %p, align 4
  %1 = load i32, ptr %q, align 4
  %cmp = icmp ult i32 %0, %1
  br i1 %cmp, label %cond.true, label %cond.false

cond.true:
  br label %cond.end

cond.false:
  br label %cond.end

cond.end:
  %cond = phi ptr [ %p, %cond.true ], [ %q, %cond.false ]
  br label %if.end

if.else:
  br label %if.end

if.end:
  %s.0 = phi ptr [ %cond, %cond.end ], [ %p, %if.else ]
  %2 = load i32, ptr %s.0, align 4
  ret i32 %2
}

define i32 @partly_there.instcombine(ptr noundef %p, ptr noundef %q, i1 noundef zeroext %c) {
entry:
  %storedv = zext i1 %c to i8
  %loadedv = trunc i8 %storedv to i1
  br i1 %loadedv, label %if.then, label %if.end

if.then:
  %0 = load i32, ptr %p, align 4
  store i32 %0, ptr %q, align 4
  br label %if.end

if.end:
  %r.0 = phi i32 [ %0, %if.then ], [ 0, %entry ]
  %1 = load i32, ptr %p, align 4
  %add = add i32 %r.0, %1
  ret i32 %add
}

define i32 @partly_there_other.instcombine(ptr noundef %p, ptr noundef %q, i1 noundef zeroext %c) {
entry:
  %storedv = zext i1 %c to i8
  %loadedv = trunc i8 %storedv to i1
  br i1 %loadedv, label %if.then, label %if.else

if.then:
  store i32 9, ptr %p, align 4
  br label %if.end

if.else:
  store i32 4, ptr %q, align 4
  br label %if.end

if.end:
  %0 = load i32, ptr %p, align 4
  ret i32 %0
}

define i32 @select_load.instcombine(ptr noundef %p, ptr noundef %q, i1 noundef zeroext %c) {
entry:
  %storedv = zext i1 %c to i8
  %loadedv = trunc i8 %storedv to i1
  br i1 %loadedv, label %cond.true, label %cond.false

cond.true:
  br label %cond.end

cond.false:
  br label %cond.end

cond.end:
  %cond = phi ptr [ %p, %cond.true ], [ %q, %cond.false ]
  %0 = load i32, ptr %cond, align 4
  %1 = load i32, ptr %cond, align 4
  %add = add i32 %0, %1
  ret i32 %add
}
