; Functions over memory, after what LLVM 19.1.7 made of them by dse, mldst-motion, gvn-sink and sink; the name's last part is the pass.

define i32 @known_in_arm.gvn-sink(ptr noundef %p, ptr noundef %q) {
entry:
  %0 = load i32, ptr %p, align 4
  %cmp = icmp eq i32 %0, 7
  br i1 %cmp, label %if.then, label %if.end

if.then:
  %add = add i32 %0, 1
  store i32 %add, ptr %q, align 4
  br label %return

if.end:
  br label %return

return:
  %q.sink = phi ptr [ %q, %if.end ], [ %p, %if.then ]
  %1 = load i32, ptr %q.sink, align 4
  ret i32 %1
}

define zeroext i8 @byte_of_word.dse(ptr noundef %p, ptr noundef %q, i32 noundef %x) {
entry:
  store i32 1, ptr %q, align 4
  store i32 %x, ptr %p, align 4
  %0 = load i8, ptr %p, align 1
  ret i8 %0
}

define zeroext i8 @arms_load_in_turn.gvn-sink(ptr noundef %p, ptr noundef %q, i8 noundef zeroext %x) {
entry:
  %conv = zext i8 %x to i32
  %cmp = icmp sgt i32 %conv, 9
  br i1 %cmp, label %if.then, label %if.else

if.then:
  br label %if.end

if.else:
  br label %if.end

if.end:
  %q.sink = phi ptr [ %q, %if.else ], [ %p, %if.then ]
  %0 = load i8, ptr %q.sink, align 1
  %conv2 = zext i8 %0 to i32
  %1 = load i8, ptr %p, align 1
  %conv3 = zext i8 %1 to i32
  %add = add nsw i32 %conv2, %conv3
  %conv4 = trunc i32 %add to i8
  ret i8 %conv4
}

define void @stored_back_in_arm.dse(ptr noundef %p, ptr noundef %q, i1 noundef zeroext %c) {
entry:
  %storedv = zext i1 %c to i8
  %0 = load i32, ptr %p, align 4
  %loadedv = trunc i8 %storedv to i1
  br i1 %loadedv, label %if.then, label %if.end

if.then:
  store i32 %0, ptr %q, align 4
  br label %if.end

if.end:
  ret void
}

define void @stored_back_in_arm.sink(ptr noundef %p, ptr noundef %q, i1 noundef zeroext %c) {
entry:
  %storedv = zext i1 %c to i8
  %loadedv = trunc i8 %storedv to i1
  br i1 %loadedv, label %if.then, label %if.end

if.then:
  %0 = load i32, ptr %p, align 4
  store i32 %0, ptr %p, align 4
  store i32 %0, ptr %q, align 4
  br label %if.end

if.end:
  ret void
}

define void @overwritten_wider.dse(ptr noundef %p, ptr noundef %q) {
entry:
  store i16 772, ptr %p, align 2
  store i8 5, ptr %q, align 1
  ret void
}

define void @overwritten_in_both.mldst(ptr noundef %p, ptr noundef %q, i1 noundef zeroext %c) {
entry:
  %storedv = zext i1 %c to i8
  store i32 1, ptr %p, align 4
  %loadedv = trunc i8 %storedv to i1
  br i1 %loadedv, label %if.then, label %if.else

if.then:
  %0 = load i32, ptr %q, align 4
  br label %if.end

if.else:
  br label %if.end

if.end:
  %.sink = phi i32 [ %0, %if.then ], [ 3, %if.else ]
  store i32 %.sink, ptr %p, align 4
  ret void
}

define void @store_in_both_arms.mldst(ptr noundef %p, ptr noundef %q, i1 noundef zeroext %c) {
entry:
  %storedv = zext i1 %c to i8
  %loadedv = trunc i8 %storedv to i1
  br i1 %loadedv, label %if.then, label %if.else

if.then:
  %0 = load i32, ptr %q, align 4
  br label %if.end

if.else:
  br label %if.end

if.end:
  %.sink = phi i32 [ %0, %if.then ], [ 5, %if.else ]
  store i32 %.sink, ptr %p, align 4
  ret void
}

define void @store_two_in_arms.mldst(ptr noundef %p, ptr noundef %q, i1 noundef zeroext %c, i32 noundef %x) {
entry:
  %storedv = zext i1 %c to i8
  %loadedv = trunc i8 %storedv to i1
  br i1 %loadedv, label %if.then, label %if.else

if.then:
  br label %if.end

if.else:
  br label %if.end

if.end:
  %.sink = phi i32 [ %x, %if.then ], [ 2, %if.else ]
  store i32 %.sink, ptr %p, align 4
  store i32 1, ptr %q, align 4
  ret void
}

define void @store_two_in_arms.gvn-sink(ptr noundef %p, ptr noundef %q, i1 noundef zeroext %c, i32 noundef %x) {
entry:
  %storedv = zext i1 %c to i8
  %loadedv = trunc i8 %storedv to i1
  br i1 %loadedv, label %if.then, label %if.else

if.then:
  store i32 %x, ptr %p, align 4
  br label %if.end

if.else:
  store i32 2, ptr %p, align 4
  br label %if.end

if.end:
  store i32 1, ptr %q, align 4
  ret void
}

define void @conditional_stores.sink(ptr noundef %p, i1 noundef zeroext %c, i1 noundef zeroext %d, ptr noundef %q) {
entry:
  %storedv = zext i1 %c to i8
  %loadedv = trunc i8 %storedv to i1
  br i1 %loadedv, label %if.then, label %if.end

if.then:
  store i32 1, ptr %p, align 4
  br label %if.end

if.end:
  %storedv1 = zext i1 %d to i8
  %loadedv2 = trunc i8 %storedv1 to i1
  br i1 %loadedv2, label %if.then3, label %if.end4

if.then3:
  store i32 2, ptr %p, align 4
  br label %if.end4

if.end4:
  store i32 0, ptr %q, align 4
  ret void
}

define i32 @same_returns.gvn-sink(ptr noundef %p, ptr noundef %q, i1 noundef zeroext %c) {
entry:
  %storedv = zext i1 %c to i8
  %loadedv = trunc i8 %storedv to i1
  br i1 %loadedv, label %if.then, label %if.end

if.then:
  br label %return

if.end:
  br label %return

return:
  %.sink = phi i32 [ 4, %if.end ], [ 3, %if.then ]
  store i32 %.sink, ptr %p, align 4
  %0 = load i32, ptr %q, align 4
  ret i32 %0
}

define zeroext i8 @sum_both.sink(ptr noundef %p, ptr noundef %q) {
entry:
  br label %for.cond

for.cond:
  %s.0 = phi i8 [ 0, %entry ], [ %conv5, %for.inc ]
  %i.0 = phi i8 [ 0, %entry ], [ %inc, %for.inc ]
  %conv = zext i8 %i.0 to i32
  %cmp = icmp slt i32 %conv, 3
  br i1 %cmp, label %for.body, label %for.end

for.body:
  br label %for.inc

for.inc:
  %idxprom = zext i8 %i.0 to i64
  %arrayidx = getelementptr inbounds i8, ptr %p, i64 %idxprom
  %0 = load i8, ptr %arrayidx, align 1
  %conv2 = zext i8 %0 to i32
  %1 = load i8, ptr %q, align 1
  %conv3 = zext i8 %1 to i32
  %mul = mul nsw i32 %conv2, %conv3
  %conv4 = zext i8 %s.0 to i32
  %add = add nsw i32 %conv4, %mul
  %conv5 = trunc i32 %add to i8
  %inc = add i8 %i.0, 1
  br label %for.cond

for.end:
  ret i8 %s.0
}

define void @stored_back.dse(ptr noundef %p, ptr noundef %q) {
entry:
  ret void
}

define void @stored_back_pointer.dse(ptr noundef %p, ptr noundef %q) {
entry:
  %0 = load ptr, ptr %p, align 8
  store ptr %0, ptr %q, align 8
  ret void
}

define void @both_sorted.dse(ptr noundef %p, ptr noundef %q) {
entry:
  %0 = load i32, ptr %p, align 4
  %1 = load i32, ptr %q, align 4
  %cmp = icmp slt i32 %1, %0
  br i1 %cmp, label %if.then, label %if.else

if.then:
  store i32 %1, ptr %p, align 4
  store i32 %0, ptr %q, align 4
  br label %if.end

if.else:
  br label %if.end

if.end:
  ret void
}

define void @both_sorted.mldst(ptr noundef %p, ptr noundef %q) {
entry:
  %0 = load i32, ptr %p, align 4
  %1 = load i32, ptr %q, align 4
  %cmp = icmp slt i32 %1, %0
  br i1 %cmp, label %if.then, label %if.else

if.then:
  br label %if.end

if.else:
  br label %if.end

if.end:
  %.sink1 = phi i32 [ %1, %if.then ], [ %0, %if.else ]
  %.sink = phi i32 [ %0, %if.then ], [ %1, %if.else ]
  store i32 %.sink1, ptr %p, align 4
  store i32 %.sink, ptr %q, align 4
  ret void
}

define void @three_rotated.dse(ptr noundef %p, ptr noundef %q, ptr noundef %r) {
entry:
  %0 = load i8, ptr %p, align 1
  %1 = load i8, ptr %q, align 1
  store i8 %1, ptr %p, align 1
  %2 = load i8, ptr %r, align 1
  store i8 %2, ptr %q, align 1
  store i8 %0, ptr %r, align 1
  ret void
}

define void @overwritten_same.dse(ptr noundef %p, ptr noundef %q, i32 noundef %x) {
entry:
  store i32 %x, ptr %q, align 4
  store i32 %x, ptr %p, align 4
  ret void
}

define void @overwritten_by_word.dse(ptr noundef %p, ptr noundef %q, i32 noundef %x) {
entry:
  store i32 %x, ptr %p, align 4
  store i32 %x, ptr %q, align 4
  ret void
}

define void @bytes_merged.dse(ptr noundef %p, ptr noundef %q, i8 noundef zeroext %x) {
entry:
  store i32 1792, ptr %p, align 4
  store i8 %x, ptr %q, align 1
  ret void
}

define void @bytes_merged_wide.dse(ptr noundef %p, ptr noundef %q) {
entry:
  store i64 72623859857491720, ptr %p, align 8
  store i8 1, ptr %q, align 1
  ret void
}

define zeroext i8 @walk.sink(ptr noundef %p, ptr noundef %end) {
entry:
  br label %while.cond

while.cond:
  %p.addr.0 = phi ptr [ %p, %entry ], [ %incdec.ptr, %if.end ]
  %s.0 = phi i8 [ 0, %entry ], [ %conv2, %if.end ]
  %cmp = icmp ne ptr %p.addr.0, %end
  br i1 %cmp, label %while.body, label %while.end

while.body:
  %0 = load i8, ptr %p.addr.0, align 1
  %conv = zext i8 %0 to i32
  %conv1 = zext i8 %s.0 to i32
  %xor = xor i32 %conv1, %conv
  %conv2 = trunc i32 %xor to i8
  %conv3 = zext i8 %conv2 to i32
  %cmp4 = icmp eq i32 %conv3, 1
  br i1 %cmp4, label %if.then, label %if.end

if.then:
  br label %while.end

if.end:
  %incdec.ptr = getelementptr inbounds i8, ptr %p.addr.0, i32 1
  br label %while.cond

while.end:
  %s.1 = phi i8 [ %conv2, %if.then ], [ %s.0, %while.cond ]
  ret i8 %s.1
}

define i32 @if_converted.sink(ptr noundef %p, ptr noundef %q, i32 noundef %x) {
entry:
  %0 = load i32, ptr %p, align 4
  %cmp = icmp ult i32 %0, %x
  br i1 %cmp, label %if.then, label %if.else

if.then:
  %1 = load i32, ptr %q, align 4
  br label %if.end

if.else:
  br label %if.end

if.end:
  %r.0 = phi i32 [ %1, %if.then ], [ %0, %if.else ]
  store i32 %r.0, ptr %p, align 4
  ret i32 %r.0
}

define i32 @pointers_equal.gvn-sink(ptr noundef %p, ptr noundef %q) {
entry:
  %cmp = icmp eq ptr %p, %q
  br i1 %cmp, label %if.then, label %if.end

if.then:
  store i32 2, ptr %p, align 4
  br label %return

if.end:
  br label %return

return:
  %p.sink = phi ptr [ %p, %if.end ], [ %q, %if.then ]
  %0 = load i32, ptr %p.sink, align 4
  ret i32 %0
}

define i32 @load_hoisted_partly.mldst(ptr %p, ptr %q, i1 %c) {
  br i1 %c, label %a, label %b

a:
  %v = load i32, ptr %p, align 4
  br label %e

b:
  br label %e

e:
  %.sink = phi i32 [ 1, %a ], [ 2, %b ]
  store i32 %.sink, ptr %q, align 4
  %w = load i32, ptr %p, align 4
  ret i32 %w
}

define void @pointer_stored_twice.dse(ptr %p, ptr %q) {
  %a = load ptr, ptr %q, align 8
  store ptr %a, ptr %p, align 8
  ret void
}
