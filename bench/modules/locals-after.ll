; Functions over memory, after what LLVM 19.1.7 made of them by sroa and mem2reg, of clang's -O0; the name's last part is the pass.

define void @counted.sroa(ptr noundef %p, ptr noundef %q, i32 noundef %x) {
entry:
  %0 = load i32, ptr %p, align 4
  %add = add i32 %0, %x
  store i32 %add, ptr %p, align 4
  %1 = load i32, ptr %q, align 4
  %add1 = add i32 %1, 1
  store i32 %add1, ptr %q, align 4
  %2 = load i32, ptr %p, align 4
  %add2 = add i32 %2, %x
  store i32 %add2, ptr %p, align 4
  ret void
}

define i32 @returns_in_turn.sroa(ptr noundef %p, ptr noundef %q, i32 noundef %x) {
entry:
  %cmp = icmp ult i32 %x, 4
  br i1 %cmp, label %if.then, label %if.end

if.then:
  store i32 %x, ptr %p, align 4
  br label %return

if.end:
  %cmp1 = icmp ult i32 %x, 9
  br i1 %cmp1, label %if.then2, label %if.end3

if.then2:
  store i32 %x, ptr %q, align 4
  br label %return

if.end3:
  store i32 0, ptr %p, align 4
  br label %return

return:
  %retval.0 = phi i32 [ 1, %if.then ], [ 2, %if.then2 ], [ 3, %if.end3 ]
  ret i32 %retval.0
}

define void @swap_through_local.sroa(ptr noundef %p, ptr noundef %q) {
entry:
  %0 = load i32, ptr %p, align 4
  %1 = load i32, ptr %q, align 4
  store i32 %1, ptr %p, align 4
  store i32 %0, ptr %q, align 4
  ret void
}

define void @negated_test.sroa(ptr noundef %p, ptr noundef %q, i32 noundef %x) {
entry:
  %cmp = icmp ugt i32 %x, 5
  br i1 %cmp, label %if.else, label %if.then

if.then:
  store i32 %x, ptr %p, align 4
  br label %if.end

if.else:
  store i32 %x, ptr %q, align 4
  br label %if.end

if.end:
  ret void
}

define void @pointers_exchanged_twice.sroa(ptr noundef %p, ptr noundef %q) {
entry:
  %0 = load ptr, ptr %p, align 8
  %1 = load ptr, ptr %q, align 8
  store ptr %1, ptr %p, align 8
  store ptr %0, ptr %q, align 8
  %2 = load ptr, ptr %p, align 8
  %3 = load ptr, ptr %q, align 8
  store ptr %3, ptr %p, align 8
  store ptr %2, ptr %q, align 8
  ret void
}

define i32 @least_of_three.sroa(ptr noundef %p, ptr noundef %q, ptr noundef %r) {
entry:
  %0 = load i32, ptr %p, align 4
  %1 = load i32, ptr %q, align 4
  %cmp = icmp ult i32 %1, %0
  br i1 %cmp, label %if.then, label %if.end

if.then:
  %2 = load i32, ptr %q, align 4
  br label %if.end

if.end:
  %a.0 = phi i32 [ %2, %if.then ], [ %0, %entry ]
  %3 = load i32, ptr %r, align 4
  %cmp1 = icmp ult i32 %3, %a.0
  br i1 %cmp1, label %if.then2, label %if.end3

if.then2:
  %4 = load i32, ptr %r, align 4
  br label %if.end3

if.end3:
  %a.1 = phi i32 [ %4, %if.then2 ], [ %a.0, %if.end ]
  ret i32 %a.1
}

define void @copy_of_copy.sroa(ptr noundef %p, ptr noundef %q, ptr noundef %r) {
entry:
  %0 = load i64, ptr %p, align 8
  store i64 %0, ptr %q, align 8
  %1 = load i64, ptr %q, align 8
  store i64 %1, ptr %r, align 8
  %2 = load i64, ptr %p, align 8
  store i64 %2, ptr %q, align 8
  ret void
}

define i32 @local_word_by_bytes.mem2reg(ptr noundef %p, ptr noundef %q) {
entry:
  %w = alloca i32, align 4
  store i32 0, ptr %w, align 4
  %0 = load i8, ptr %p, align 1
  %arrayidx = getelementptr inbounds i8, ptr %w, i64 0
  store i8 %0, ptr %arrayidx, align 1
  %1 = load i8, ptr %q, align 1
  %arrayidx1 = getelementptr inbounds i8, ptr %w, i64 2
  store i8 %1, ptr %arrayidx1, align 1
  %2 = load i32, ptr %w, align 4
  ret i32 %2
}

define void @swap_through_local.mem2reg(ptr noundef %p, ptr noundef %q) {
entry:
  %t = alloca [2 x i32], align 4
  %0 = load i32, ptr %p, align 4
  %arrayidx = getelementptr inbounds [2 x i32], ptr %t, i64 0, i64 0
  store i32 %0, ptr %arrayidx, align 4
  %1 = load i32, ptr %q, align 4
  %arrayidx1 = getelementptr inbounds [2 x i32], ptr %t, i64 0, i64 1
  store i32 %1, ptr %arrayidx1, align 4
  %arrayidx2 = getelementptr inbounds [2 x i32], ptr %t, i64 0, i64 1
  %2 = load i32, ptr %arrayidx2, align 4
  store i32 %2, ptr %p, align 4
  %arrayidx3 = getelementptr inbounds [2 x i32], ptr %t, i64 0, i64 0
  %3 = load i32, ptr %arrayidx3, align 4
  store i32 %3, ptr %q, align 4
  ret void
}

define i32 @store_forwarded.mem2reg(ptr noundef %p, ptr noundef %q, i32 noundef %x) {
entry:
  store i32 %x, ptr %p, align 4
  %0 = load i32, ptr %p, align 4
  %add = add i32 %0, 1
  store i32 %add, ptr %q, align 4
  %1 = load i32, ptr %q, align 4
  ret i32 %1
}

define zeroext i8 @byte_of_word.mem2reg(ptr noundef %p, ptr noundef %q, i32 noundef %x) {
entry:
  store i32 %x, ptr %p, align 4
  store i32 1, ptr %q, align 4
  store i32 %x, ptr %p, align 4
  %0 = load i8, ptr %p, align 1
  ret i8 %0
}

define i32 @three_copied.mem2reg(ptr noundef %p, ptr noundef %q, ptr noundef %r) {
entry:
  %0 = load i32, ptr %q, align 4
  store i32 %0, ptr %p, align 4
  %1 = load i32, ptr %p, align 4
  store i32 %1, ptr %r, align 4
  %2 = load i32, ptr %r, align 4
  ret i32 %2
}

define void @choose_store.mem2reg(ptr noundef %p, ptr noundef %q, i8 noundef zeroext %x) {
entry:
  %conv = zext i8 %x to i32
  switch i32 %conv, label %sw.default [
    i32 0, label %sw.bb
    i32 1, label %sw.bb1
    i32 2, label %sw.bb2
  ]

sw.bb:
  store i8 1, ptr %p, align 1
  br label %sw.epilog

sw.bb1:
  store i8 1, ptr %q, align 1
  br label %sw.epilog

sw.bb2:
  store i8 1, ptr %p, align 1
  br label %sw.epilog

sw.default:
  store i8 2, ptr %q, align 1
  br label %sw.epilog

sw.epilog:
  ret void
}

define zeroext i8 @either_test.mem2reg(ptr noundef %p, ptr noundef %q) {
entry:
  %0 = load i8, ptr %p, align 1
  %conv = zext i8 %0 to i32
  %cmp = icmp eq i32 %conv, 1
  br i1 %cmp, label %if.then, label %lor.lhs.false

lor.lhs.false:
  %1 = load i8, ptr %q, align 1
  %conv2 = zext i8 %1 to i32
  %cmp3 = icmp eq i32 %conv2, 1
  br i1 %cmp3, label %if.then, label %if.end

if.then:
  store i8 0, ptr %p, align 1
  store i8 0, ptr %q, align 1
  br label %if.end

if.end:
  %2 = load i8, ptr %p, align 1
  ret i8 %2
}
