; Functions over memory, before what LLVM 19.1.7 made of them by sroa and mem2reg, of clang's -O0; the name's last part is the pass.

define void @counted.sroa(ptr noundef %p, ptr noundef %q, i32 noundef %x) {
entry:
  %p.addr = alloca ptr, align 8
  %q.addr = alloca ptr, align 8
  %x.addr = alloca i32, align 4
  store ptr %p, ptr %p.addr, align 8
  store ptr %q, ptr %q.addr, align 8
  store i32 %x, ptr %x.addr, align 4
  %0 = load ptr, ptr %p.addr, align 8
  %1 = load i32, ptr %0, align 4
  %2 = load i32, ptr %x.addr, align 4
  %add = add i32 %1, %2
  %3 = load ptr, ptr %p.addr, align 8
  store i32 %add, ptr %3, align 4
  %4 = load ptr, ptr %q.addr, align 8
  %5 = load i32, ptr %4, align 4
  %add1 = add i32 %5, 1
  %6 = load ptr, ptr %q.addr, align 8
  store i32 %add1, ptr %6, align 4
  %7 = load ptr, ptr %p.addr, align 8
  %8 = load i32, ptr %7, align 4
  %9 = load i32, ptr %x.addr, align 4
  %add2 = add i32 %8, %9
  %10 = load ptr, ptr %p.addr, align 8
  store i32 %add2, ptr %10, align 4
  ret void
}

define i32 @returns_in_turn.sroa(ptr noundef %p, ptr noundef %q, i32 noundef %x) {
entry:
  %retval = alloca i32, align 4
  %p.addr = alloca ptr, align 8
  %q.addr = alloca ptr, align 8
  %x.addr = alloca i32, align 4
  store ptr %p, ptr %p.addr, align 8
  store ptr %q, ptr %q.addr, align 8
  store i32 %x, ptr %x.addr, align 4
  %0 = load i32, ptr %x.addr, align 4
  %cmp = icmp ult i32 %0, 4
  br i1 %cmp, label %if.then, label %if.end

if.then:
  %1 = load i32, ptr %x.addr, align 4
  %2 = load ptr, ptr %p.addr, align 8
  store i32 %1, ptr %2, align 4
  store i32 1, ptr %retval, align 4
  br label %return

if.end:
  %3 = load i32, ptr %x.addr, align 4
  %cmp1 = icmp ult i32 %3, 9
  br i1 %cmp1, label %if.then2, label %if.end3

if.then2:
  %4 = load i32, ptr %x.addr, align 4
  %5 = load ptr, ptr %q.addr, align 8
  store i32 %4, ptr %5, align 4
  store i32 2, ptr %retval, align 4
  br label %return

if.end3:
  %6 = load ptr, ptr %p.addr, align 8
  store i32 0, ptr %6, align 4
  store i32 3, ptr %retval, align 4
  br label %return

return:
  %7 = load i32, ptr %retval, align 4
  ret i32 %7
}

define void @swap_through_local.sroa(ptr noundef %p, ptr noundef %q) {
entry:
  %p.addr = alloca ptr, align 8
  %q.addr = alloca ptr, align 8
  %t = alloca [2 x i32], align 4
  store ptr %p, ptr %p.addr, align 8
  store ptr %q, ptr %q.addr, align 8
  %0 = load ptr, ptr %p.addr, align 8
  %1 = load i32, ptr %0, align 4
  %arrayidx = getelementptr inbounds [2 x i32], ptr %t, i64 0, i64 0
  store i32 %1, ptr %arrayidx, align 4
  %2 = load ptr, ptr %q.addr, align 8
  %3 = load i32, ptr %2, align 4
  %arrayidx1 = getelementptr inbounds [2 x i32], ptr %t, i64 0, i64 1
  store i32 %3, ptr %arrayidx1, align 4
  %arrayidx2 = getelementptr inbounds [2 x i32], ptr %t, i64 0, i64 1
  %4 = load i32, ptr %arrayidx2, align 4
  %5 = load ptr, ptr %p.addr, align 8
  store i32 %4, ptr %5, align 4
  %arrayidx3 = getelementptr inbounds [2 x i32], ptr %t, i64 0, i64 0
  %6 = load i32, ptr %arrayidx3, align 4
  %7 = load ptr, ptr %q.addr, align 8
  store i32 %6, ptr %7, align 4
  ret void
}

define void @negated_test.sroa(ptr noundef %p, ptr noundef %q, i32 noundef %x) {
entry:
  %p.addr = alloca ptr, align 8
  %q.addr = alloca ptr, align 8
  %x.addr = alloca i32, align 4
  store ptr %p, ptr %p.addr, align 8
  store ptr %q, ptr %q.addr, align 8
  store i32 %x, ptr %x.addr, align 4
  %0 = load i32, ptr %x.addr, align 4
  %cmp = icmp ugt i32 %0, 5
  br i1 %cmp, label %if.else, label %if.then

if.then:
  %1 = load i32, ptr %x.addr, align 4
  %2 = load ptr, ptr %p.addr, align 8
  store i32 %1, ptr %2, align 4
  br label %if.end

if.else:
  %3 = load i32, ptr %x.addr, align 4
  %4 = load ptr, ptr %q.addr, align 8
  store i32 %3, ptr %4, align 4
  br label %if.end

if.end:
  ret void
}

define void @pointers_exchanged_twice.sroa(ptr noundef %p, ptr noundef %q) {
entry:
  %p.addr = alloca ptr, align 8
  %q.addr = alloca ptr, align 8
  %t = alloca ptr, align 8
  %s = alloca ptr, align 8
  store ptr %p, ptr %p.addr, align 8
  store ptr %q, ptr %q.addr, align 8
  %0 = load ptr, ptr %p.addr, align 8
  %1 = load ptr, ptr %0, align 8
  store ptr %1, ptr %t, align 8
  %2 = load ptr, ptr %q.addr, align 8
  %3 = load ptr, ptr %2, align 8
  %4 = load ptr, ptr %p.addr, align 8
  store ptr %3, ptr %4, align 8
  %5 = load ptr, ptr %t, align 8
  %6 = load ptr, ptr %q.addr, align 8
  store ptr %5, ptr %6, align 8
  %7 = load ptr, ptr %p.addr, align 8
  %8 = load ptr, ptr %7, align 8
  store ptr %8, ptr %s, align 8
  %9 = load ptr, ptr %q.addr, align 8
  %10 = load ptr, ptr %9, align 8
  %11 = load ptr, ptr %p.addr, align 8
  store ptr %10, ptr %11, align 8
  %12 = load ptr, ptr %s, align 8
  %13 = load ptr, ptr %q.addr, align 8
  store ptr %12, ptr %13, align 8
  ret void
}

define i32 @least_of_three.sroa(ptr noundef %p, ptr noundef %q, ptr noundef %r) {
entry:
  %p.addr = alloca ptr, align 8
  %q.addr = alloca ptr, align 8
  %r.addr = alloca ptr, align 8
  %a = alloca i32, align 4
  store ptr %p, ptr %p.addr, align 8
  store ptr %q, ptr %q.addr, align 8
  store ptr %r, ptr %r.addr, align 8
  %0 = load ptr, ptr %p.addr, align 8
  %1 = load i32, ptr %0, align 4
  store i32 %1, ptr %a, align 4
  %2 = load ptr, ptr %q.addr, align 8
  %3 = load i32, ptr %2, align 4
  %4 = load i32, ptr %a, align 4
  %cmp = icmp ult i32 %3, %4
  br i1 %cmp, label %if.then, label %if.end

if.then:
  %5 = load ptr, ptr %q.addr, align 8
  %6 = load i32, ptr %5, align 4
  store i32 %6, ptr %a, align 4
  br label %if.end

if.end:
  %7 = load ptr, ptr %r.addr, align 8
  %8 = load i32, ptr %7, align 4
  %9 = load i32, ptr %a, align 4
  %cmp1 = icmp ult i32 %8, %9
  br i1 %cmp1, label %if.then2, label %if.end3

if.then2:
  %10 = load ptr, ptr %r.addr, align 8
  %11 = load i32, ptr %10, align 4
  store i32 %11, ptr %a, align 4
  br label %if.end3

if.end3:
  %12 = load i32, ptr %a, align 4
  ret i32 %12
}

define void @copy_of_copy.sroa(ptr noundef %p, ptr noundef %q, ptr noundef %r) {
entry:
  %p.addr = alloca ptr, align 8
  %q.addr = alloca ptr, align 8
  %r.addr = alloca ptr, align 8
  store ptr %p, ptr %p.addr, align 8
  store ptr %q, ptr %q.addr, align 8
  store ptr %r, ptr %r.addr, align 8
  %0 = load ptr, ptr %p.addr, align 8
  %1 = load i64, ptr %0, align 8
  %2 = load ptr, ptr %q.addr, align 8
  store i64 %1, ptr %2, align 8
  %3 = load ptr, ptr %q.addr, align 8
  %4 = load i64, ptr %3, align 8
  %5 = load ptr, ptr %r.addr, align 8
  store i64 %4, ptr %5, align 8
  %6 = load ptr, ptr %p.addr, align 8
  %7 = load i64, ptr %6, align 8
  %8 = load ptr, ptr %q.addr, align 8
  store i64 %7, ptr %8, align 8
  ret void
}

define i32 @local_word_by_bytes.mem2reg(ptr noundef %p, ptr noundef %q) {
entry:
  %p.addr = alloca ptr, align 8
  %q.addr = alloca ptr, align 8
  %w = alloca i32, align 4
  %b = alloca ptr, align 8
  store ptr %p, ptr %p.addr, align 8
  store ptr %q, ptr %q.addr, align 8
  store i32 0, ptr %w, align 4
  store ptr %w, ptr %b, align 8
  %0 = load ptr, ptr %p.addr, align 8
  %1 = load i8, ptr %0, align 1
  %2 = load ptr, ptr %b, align 8
  %arrayidx = getelementptr inbounds i8, ptr %2, i64 0
  store i8 %1, ptr %arrayidx, align 1
  %3 = load ptr, ptr %q.addr, align 8
  %4 = load i8, ptr %3, align 1
  %5 = load ptr, ptr %b, align 8
  %arrayidx1 = getelementptr inbounds i8, ptr %5, i64 2
  store i8 %4, ptr %arrayidx1, align 1
  %6 = load i32, ptr %w, align 4
  ret i32 %6
}

define void @swap_through_local.mem2reg(ptr noundef %p, ptr noundef %q) {
entry:
  %p.addr = alloca ptr, align 8
  %q.addr = alloca ptr, align 8
  %t = alloca [2 x i32], align 4
  store ptr %p, ptr %p.addr, align 8
  store ptr %q, ptr %q.addr, align 8
  %0 = load ptr, ptr %p.addr, align 8
  %1 = load i32, ptr %0, align 4
  %arrayidx = getelementptr inbounds [2 x i32], ptr %t, i64 0, i64 0
  store i32 %1, ptr %arrayidx, align 4
  %2 = load ptr, ptr %q.addr, align 8
  %3 = load i32, ptr %2, align 4
  %arrayidx1 = getelementptr inbounds [2 x i32], ptr %t, i64 0, i64 1
  store i32 %3, ptr %arrayidx1, align 4
  %arrayidx2 = getelementptr inbounds [2 x i32], ptr %t, i64 0, i64 1
  %4 = load i32, ptr %arrayidx2, align 4
  %5 = load ptr, ptr %p.addr, align 8
  store i32 %4, ptr %5, align 4
  %arrayidx3 = getelementptr inbounds [2 x i32], ptr %t, i64 0, i64 0
  %6 = load i32, ptr %arrayidx3, align 4
  %7 = load ptr, ptr %q.addr, align 8
  store i32 %6, ptr %7, align 4
  ret void
}

define i32 @store_forwarded.mem2reg(ptr noundef %p, ptr noundef %q, i32 noundef %x) {
entry:
  %p.addr = alloca ptr, align 8
  %q.addr = alloca ptr, align 8
  %x.addr = alloca i32, align 4
  store ptr %p, ptr %p.addr, align 8
  store ptr %q, ptr %q.addr, align 8
  store i32 %x, ptr %x.addr, align 4
  %0 = load i32, ptr %x.addr, align 4
  %1 = load ptr, ptr %p.addr, align 8
  store i32 %0, ptr %1, align 4
  %2 = load ptr, ptr %p.addr, align 8
  %3 = load i32, ptr %2, align 4
  %add = add i32 %3, 1
  %4 = load ptr, ptr %q.addr, align 8
  store i32 %add, ptr %4, align 4
  %5 = load ptr, ptr %q.addr, align 8
  %6 = load i32, ptr %5, align 4
  ret i32 %6
}

define zeroext i8 @byte_of_word.mem2reg(ptr noundef %p, ptr noundef %q, i32 noundef %x) {
entry:
  %p.addr = alloca ptr, align 8
  %q.addr = alloca ptr, align 8
  %x.addr = alloca i32, align 4
  store ptr %p, ptr %p.addr, align 8
  store ptr %q, ptr %q.addr, align 8
  store i32 %x, ptr %x.addr, align 4
  %0 = load i32, ptr %x.addr, align 4
  %1 = load ptr, ptr %p.addr, align 8
  store i32 %0, ptr %1, align 4
  %2 = load ptr, ptr %q.addr, align 8
  store i32 1, ptr %2, align 4
  %3 = load i32, ptr %x.addr, align 4
  %4 = load ptr, ptr %p.addr, align 8
  store i32 %3, ptr %4, align 4
  %5 = load ptr, ptr %p.addr, align 8
  %6 = load i8, ptr %5, align 1
  ret i8 %6
}

define i32 @three_copied.mem2reg(ptr noundef %p, ptr noundef %q, ptr noundef %r) {
entry:
  %p.addr = alloca ptr, align 8
  %q.addr = alloca ptr, align 8
  %r.addr = alloca ptr, align 8
  store ptr %p, ptr %p.addr, align 8
  store ptr %q, ptr %q.addr, align 8
  store ptr %r, ptr %r.addr, align 8
  %0 = load ptr, ptr %q.addr, align 8
  %1 = load i32, ptr %0, align 4
  %2 = load ptr, ptr %p.addr, align 8
  store i32 %1, ptr %2, align 4
  %3 = load ptr, ptr %p.addr, align 8
  %4 = load i32, ptr %3, align 4
  %5 = load ptr, ptr %r.addr, align 8
  store i32 %4, ptr %5, align 4
  %6 = load ptr, ptr %r.addr, align 8
  %7 = load i32, ptr %6, align 4
  ret i32 %7
}

define void @choose_store.mem2reg(ptr noundef %p, ptr noundef %q, i8 noundef zeroext %x) {
entry:
  %p.addr = alloca ptr, align 8
  %q.addr = alloca ptr, align 8
  %x.addr = alloca i8, align 1
  store ptr %p, ptr %p.addr, align 8
  store ptr %q, ptr %q.addr, align 8
  store i8 %x, ptr %x.addr, align 1
  %0 = load i8, ptr %x.addr, align 1
  %conv = zext i8 %0 to i32
  switch i32 %conv, label %sw.default [
    i32 0, label %sw.bb
    i32 1, label %sw.bb1
    i32 2, label %sw.bb2
  ]

sw.bb:
  %1 = load ptr, ptr %p.addr, align 8
  store i8 1, ptr %1, align 1
  br label %sw.epilog

sw.bb1:
  %2 = load ptr, ptr %q.addr, align 8
  store i8 1, ptr %2, align 1
  br label %sw.epilog

sw.bb2:
  %3 = load ptr, ptr %p.addr, align 8
  store i8 1, ptr %3, align 1
  br label %sw.epilog

sw.default:
  %4 = load ptr, ptr %q.addr, align 8
  store i8 2, ptr %4, align 1
  br label %sw.epilog

sw.epilog:
  ret void
}

define zeroext i8 @either_test.mem2reg(ptr noundef %p, ptr noundef %q) {
entry:
  %p.addr = alloca ptr, align 8
  %q.addr = alloca ptr, align 8
  store ptr %p, ptr %p.addr, align 8
  store ptr %q, ptr %q.addr, align 8
  %0 = load ptr, ptr %p.addr, align 8
  %1 = load i8, ptr %0, align 1
  %conv = zext i8 %1 to i32
  %cmp = icmp eq i32 %conv, 1
  br i1 %cmp, label %if.then, label %lor.lhs.false

lor.lhs.false:
  %2 = load ptr, ptr %q.addr, align 8
  %3 = load i8, ptr %2, align 1
  %conv2 = zext i8 %3 to i32
  %cmp3 = icmp eq i32 %conv2, 1
  br i1 %cmp3, label %if.then, label %if.end

if.then:
  %4 = load ptr, ptr %p.addr, align 8
  store i8 0, ptr %4, align 1
  %5 = load ptr, ptr %q.addr, align 8
  store i8 0, ptr %5, align 1
  br label %if.end

if.end:
  %6 = load ptr, ptr %p.addr, align 8
  %7 = load i8, ptr %6, align 1
  ret i8 %7
}
