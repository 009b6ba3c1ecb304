; Functions over memory, after what LLVM 19.1.7 made of them by instcombine; the name's last part is the pass.

define i32 @three_copied.instcombine(ptr noundef %p, ptr noundef %q, ptr noundef %r) {
entry:
  %0 = load i32, ptr %q, align 4
  store i32 %0, ptr %p, align 4
  store i32 %0, ptr %r, align 4
  ret i32 %0
}

define void @store_after_compare.instcombine(ptr noundef %p, ptr noundef %q) {
entry:
  %0 = load i8, ptr %p, align 1
  %1 = load i8, ptr %q, align 1
  %cmp.not = icmp eq i8 %0, %1
  br i1 %cmp.not, label %if.end, label %if.then

if.then:
  %2 = load i8, ptr %q, align 1
  store i8 %2, ptr %p, align 1
  br label %if.end

if.end:
  ret void
}

define zeroext i8 @either_test.instcombine(ptr noundef %p, ptr noundef %q) {
entry:
  %0 = load i8, ptr %p, align 1
  %cmp = icmp eq i8 %0, 1
  br i1 %cmp, label %if.then, label %lor.lhs.false

lor.lhs.false:
  %1 = load i8, ptr %q, align 1
  %cmp3 = icmp eq i8 %1, 1
  br i1 %cmp3, label %if.then, label %if.end

if.then:
  store i8 0, ptr %p, align 1
  store i8 0, ptr %q, align 1
  br label %if.end

if.end:
  %2 = load i8, ptr %p, align 1
  ret i8 %2
}

define i32 @sum_both_twice.instcombine(ptr noundef %p, ptr noundef %q) {
entry:
  %0 = load i32, ptr %p, align 4
  %1 = load i32, ptr %q, align 4
  %add = add i32 %0, %1
  %add1 = add i32 %0, %1
  %mul = mul i32 %add, 3
  %add2 = add i32 %mul, %add1
  ret i32 %add2
}

define i32 @load_then_index.instcombine(ptr noundef %p, ptr noundef %q) {
entry:
  %0 = load i32, ptr %q, align 4
  %and = and i32 %0, 1
  %idxprom = zext nneg i32 %and to i64
  %arrayidx = getelementptr inbounds i32, ptr %p, i64 %idxprom
  %1 = load i32, ptr %arrayidx, align 4
  %idxprom1 = zext nneg i32 %and to i64
  %arrayidx2 = getelementptr inbounds i32, ptr %p, i64 %idxprom1
  %2 = load i32, ptr %arrayidx2, align 4
  %add = add i32 %1, %2
  ret i32 %add
}

define i32 @index_after_store.instcombine(ptr noundef %p, ptr noundef %q, i32 noundef %x) {
entry:
  %0 = load i8, ptr %q, align 1
  %1 = and i8 %0, 1
  %idxprom = zext nneg i8 %1 to i64
  %arrayidx = getelementptr inbounds i32, ptr %p, i64 %idxprom
  store i32 %x, ptr %arrayidx, align 4
  %idxprom1 = zext nneg i8 %1 to i64
  %arrayidx2 = getelementptr inbounds i32, ptr %p, i64 %idxprom1
  %2 = load i32, ptr %arrayidx2, align 4
  %add = add i32 %2, %x
  ret i32 %add
}

define i64 @wide_by_parts.instcombine(ptr %p, ptr %q) {
  %g = getelementptr i8, ptr %p, i64 4
  %a = load i32, ptr %p, align 4
  %b = load i32, ptr %g, align 4
  store i32 %a, ptr %q, align 4
  %d = zext i32 %a to i64
  %e = zext i32 %b to i64
  %f = shl nuw i64 %e, 32
  %h = or disjoint i64 %f, %d
  ret i64 %h
}

define zeroext i8 @constant_in_local.instcombine(ptr noundef %p, ptr noundef %q) {
entry:
  br i1 false, label %if.then, label %if.end

if.then:
  br label %if.end

if.end:
  store i8 4, ptr %q, align 1
  ret i8 6
}

define void @overwritten.instcombine(ptr noundef %p, ptr noundef %q, i32 noundef %x) {
entry:
  store i32 %x, ptr %p, align 4
  %0 = load i32, ptr %q, align 4
  %add = add i32 %0, %x
  store i32 %add, ptr %p, align 4
  ret void
}

define i8 @gep_of_gep.instcombine(ptr %p, ptr %q, i8 %i) {
  %b = getelementptr i8, ptr %p, i64 3
  %v = load i8, ptr %b, align 1
  store i8 %v, ptr %q, align 1
  %c = getelementptr i8, ptr %p, i64 3
  %w = load i8, ptr %c, align 1
  %s = add i8 %w, %v
  ret i8 %s
}

define zeroext i8 @constant_after_test.instcombine(ptr noundef %p, ptr noundef %q, i8 noundef zeroext %x) {
entry:
  %cmp = icmp eq i8 %x, 3
  br i1 %cmp, label %if.then, label %if.end

if.then:
  %narrow = add nuw nsw i8 %x, 1
  store i8 %narrow, ptr %p, align 1
  br label %return

if.end:
  store i8 %x, ptr %q, align 1
  br label %return

return:
  %retval.0 = phi i8 [ 6, %if.then ], [ 0, %if.end ]
  ret i8 %retval.0
}

define i32 @null_test.instcombine(ptr noundef %p, ptr noundef %q) {
entry:
  %cmp.not = icmp eq ptr %p, null
  br i1 %cmp.not, label %if.end, label %if.then

if.then:
  %0 = load i32, ptr %p, align 4
  br label %if.end

if.end:
  %r.0 = phi i32 [ %0, %if.then ], [ 1, %entry ]
  store i32 %r.0, ptr %q, align 4
  ret i32 %r.0
}

define i32 @frozen_argument.instcombine(i32 noundef %x, ptr %p, ptr %q) {
  %t = icmp eq i32 %x, 3
  br i1 %t, label %a, label %b

a:
  store i32 %x, ptr %p, align 4
  br label %b

b:
  %v = load i32, ptr %q, align 4
  ret i32 %v
}

define i32 @frozen_twice.instcombine(i32 %x, ptr %p, ptr %q) {
  %f = freeze i32 %x
  %t = icmp ult i32 %f, 3
  br i1 %t, label %a, label %b

a:
  store i32 %f, ptr %p, align 4
  br label %b

b:
  %v = load i32, ptr %q, align 4
  %s = add i32 %v, %f
  ret i32 %s
}

define i32 @nested_tests.instcombine(ptr noundef %p, ptr noundef %q, i1 noundef zeroext %c, i1 noundef zeroext %d) {
entry:
  br i1 %c, label %if.then, label %if.else4

if.then:
  br i1 %d, label %if.then3, label %if.else

if.then3:
  store i32 1, ptr %p, align 4
  br label %if.end

if.else:
  store i32 1, ptr %q, align 4
  br label %if.end

if.end:
  br label %if.end9

if.else4:
  br i1 %d, label %if.then6, label %if.else7

if.then6:
  store i32 1, ptr %p, align 4
  br label %if.end8

if.else7:
  store i32 1, ptr %q, align 4
  br label %if.end8

if.end8:
  br label %if.end9

if.end9:
  %0 = load i32, ptr %p, align 4
  ret i32 %0
}

define void @negated_twice.instcombine(ptr noundef %p, ptr noundef %q, i1 noundef zeroext %c) {
entry:
  br i1 %c, label %if.then, label %if.else

if.then:
  %0 = load i8, ptr %q, align 1
  store i8 %0, ptr %p, align 1
  br label %if.end

if.else:
  store i8 1, ptr %q, align 1
  br label %if.end

if.end:
  ret void
}

define i32 @local_of_pointers.instcombine(ptr noundef %p, ptr noundef %q, i1 noundef zeroext %c) {
entry:
  %t = alloca [2 x ptr], align 16
  store ptr %p, ptr %t, align 16
  %arrayidx1 = getelementptr inbounds i8, ptr %t, i64 8
  store ptr %q, ptr %arrayidx1, align 8
  store i32 4, ptr %p, align 4
  %idxprom = zext i1 %c to i64
  %arrayidx3 = getelementptr inbounds [2 x ptr], ptr %t, i64 0, i64 %idxprom
  %0 = load ptr, ptr %arrayidx3, align 8
  %1 = load i32, ptr %0, align 4
  ret i32 %1
}

define i32 @test_again.instcombine(ptr noundef %p, ptr noundef %q, i1 noundef zeroext %c) {
entry:
  br i1 %c, label %if.then, label %if.end

if.then:
  %0 = load i32, ptr %p, align 4
  br label %if.end

if.end:
  %r.0 = phi i32 [ %0, %if.then ], [ 0, %entry ]
  store i32 %r.0, ptr %q, align 4
  br i1 %c, label %if.then2, label %if.end3

if.then2:
  %1 = load i32, ptr %p, align 4
  %add = add i32 %r.0, %1
  br label %if.end3

if.end3:
  %r.1 = phi i32 [ %add, %if.then2 ], [ %r.0, %if.end ]
  ret i32 %r.1
}

define void @store_two_exchanged.instcombine(ptr noundef %p, ptr noundef %q, i1 noundef zeroext %c, i32 noundef %x) {
entry:
  br i1 %c, label %if.then, label %if.else

if.then:
  store i32 %x, ptr %p, align 4
  store i32 %x, ptr %q, align 4
  br label %if.end

if.else:
  store i32 %x, ptr %q, align 4
  store i32 %x, ptr %p, align 4
  br label %if.end

if.end:
  ret void
}

define i64 @load_wide_twice.instcombine(ptr noundef %p, ptr noundef %q, i1 noundef zeroext %c) {
entry:
  %0 = load i64, ptr %p, align 8
  br i1 %c, label %if.then, label %if.end

if.then:
  %1 = load i64, ptr %q, align 8
  %add = add i64 %0, %1
  br label %if.end

if.end:
  %a.0 = phi i64 [ %add, %if.then ], [ %0, %entry ]
  %2 = load i64, ptr %p, align 8
  %sub = sub i64 %a.0, %2
  ret i64 %sub
}

define i32 @pointer_of_arm.instcombine(ptr noundef %p, ptr noundef %q, ptr noundef %r, i1 noundef zeroext %c) {
entry:
  br i1 %c, label %if.then, label %if.else

if.then:
  store i32 99, ptr %r, align 4
  %0 = load i32, ptr %p, align 4
  %1 = load i32, ptr %q, align 4
  %cmp = icmp ult i32 %0, %1
  br i1 %cmp, label %cond.true, label %cond.false

cond.true:
  br label %cond.end

cond.false:
  br label %cond.end

cond.end:
  %cond = phi ptr [ %p, %cond.true ], [ %q, %cond.false ]
  br label %if.end

if.else:
  br label %if.end

if.end:
  %s.0 = phi ptr [ %cond, %cond.end ], [ %p, %if.else ]
  %2 = load i32, ptr %s.0, align 4
  ret i32 %2
}

define i32 @partly_there.instcombine(ptr noundef %p, ptr noundef %q, i1 noundef zeroext %c) {
entry:
  br i1 %c, label %if.then, label %if.end

if.then:
  %0 = load i32, ptr %p, align 4
  store i32 %0, ptr %q, align 4
  br label %if.end

if.end:
  %r.0 = phi i32 [ %0, %if.then ], [ 0, %entry ]
  %1 = load i32, ptr %p, align 4
  %add = add i32 %r.0, %1
  ret i32 %add
}

define i32 @partly_there_other.instcombine(ptr noundef %p, ptr noundef %q, i1 noundef zeroext %c) {
entry:
  br i1 %c, label %if.then, label %if.else

if.then:
  store i32 9, ptr %p, align 4
  br label %if.end

if.else:
  store i32 4, ptr %q, align 4
  br label %if.end

if.end:
  %0 = load i32, ptr %p, align 4
  ret i32 %0
}

define i32 @select_load.instcombine(ptr noundef %p, ptr noundef %q, i1 noundef zeroext %c) {
entry:
  br i1 %c, label %cond.true, label %cond.false

cond.true:
  br label %cond.end

cond.false:
  br label %cond.end

cond.end:
  %cond = phi ptr [ %p, %cond.true ], [ %q, %cond.false ]
  %0 = load i32, ptr %cond, align 4
  %add = shl i32 %0, 1
  ret i32 %add
}
