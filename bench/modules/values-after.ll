; Functions over memory, after what LLVM 19.1.7 made of them by sccp and reassociate; the name's last part is the pass.

define i32 @load_again_after_other_store.reassociate(ptr noundef %p, ptr noundef %q, i32 noundef %x) {
entry:
  %0 = load i32, ptr %p, align 4
  store i32 %x, ptr %q, align 4
  %1 = load i32, ptr %q, align 4
  %add = add i32 %1, %0
  %2 = load i32, ptr %p, align 4
  %add1 = add i32 %add, %2
  ret i32 %add1
}

define zeroext i8 @load_bytes_twice.reassociate(ptr noundef %p, ptr noundef %q) {
entry:
  %arrayidx = getelementptr inbounds i8, ptr %p, i64 0
  %0 = load i8, ptr %arrayidx, align 1
  %conv = zext i8 %0 to i32
  %arrayidx1 = getelementptr inbounds i8, ptr %q, i64 1
  %1 = load i8, ptr %arrayidx1, align 1
  %conv2 = zext i8 %1 to i32
  %xor = xor i32 %conv2, %conv
  %conv3 = trunc i32 %xor to i8
  %arrayidx4 = getelementptr inbounds i8, ptr %q, i64 1
  %2 = load i8, ptr %arrayidx4, align 1
  %conv5 = zext i8 %2 to i32
  %arrayidx6 = getelementptr inbounds i8, ptr %p, i64 0
  %3 = load i8, ptr %arrayidx6, align 1
  %conv7 = zext i8 %3 to i32
  %xor8 = xor i32 %conv7, %conv5
  %conv9 = trunc i32 %xor8 to i8
  %conv10 = zext i8 %conv3 to i32
  %conv11 = zext i8 %conv9 to i32
  %arrayidx12 = getelementptr inbounds i8, ptr %p, i64 0
  %4 = load i8, ptr %arrayidx12, align 1
  %conv13 = zext i8 %4 to i32
  %add = add nsw i32 %conv13, %conv10
  %add14 = add nsw i32 %add, %conv11
  %conv15 = trunc i32 %add14 to i8
  ret i8 %conv15
}

define zeroext i8 @through_pointer_twice.reassociate(ptr noundef %p, ptr noundef %q) {
entry:
  %0 = load ptr, ptr %p, align 8
  %1 = load i8, ptr %0, align 1
  %conv = zext i8 %1 to i32
  %2 = load ptr, ptr %q, align 8
  %3 = load i8, ptr %2, align 1
  %conv1 = zext i8 %3 to i32
  %add = add nsw i32 %conv1, %conv
  %4 = load ptr, ptr %p, align 8
  %5 = load i8, ptr %4, align 1
  %conv2 = zext i8 %5 to i32
  %add3 = add nsw i32 %add, %conv2
  %conv4 = trunc i32 %add3 to i8
  ret i8 %conv4
}

define zeroext i8 @store_forwarded_bytes.reassociate(ptr noundef %p, ptr noundef %q, i8 noundef zeroext %x) {
entry:
  %arrayidx = getelementptr inbounds i8, ptr %p, i64 1
  store i8 %x, ptr %arrayidx, align 1
  %arrayidx1 = getelementptr inbounds i8, ptr %p, i64 1
  %0 = load i8, ptr %arrayidx1, align 1
  %arrayidx2 = getelementptr inbounds i8, ptr %q, i64 0
  store i8 %0, ptr %arrayidx2, align 1
  %arrayidx3 = getelementptr inbounds i8, ptr %q, i64 0
  %1 = load i8, ptr %arrayidx3, align 1
  %conv = zext i8 %1 to i32
  %arrayidx4 = getelementptr inbounds i8, ptr %p, i64 1
  %2 = load i8, ptr %arrayidx4, align 1
  %conv5 = zext i8 %2 to i32
  %add = add nsw i32 %conv5, %conv
  %conv6 = trunc i32 %add to i8
  ret i8 %conv6
}

define zeroext i16 @bytes_joined.reassociate(ptr noundef %p, ptr noundef %q) {
entry:
  %arrayidx = getelementptr inbounds i8, ptr %p, i64 0
  %0 = load i8, ptr %arrayidx, align 1
  %conv = zext i8 %0 to i32
  %arrayidx1 = getelementptr inbounds i8, ptr %p, i64 1
  %1 = load i8, ptr %arrayidx1, align 1
  %conv2 = zext i8 %1 to i16
  %conv3 = zext i16 %conv2 to i32
  %shl = shl i32 %conv3, 8
  %or = or i32 %shl, %conv
  %conv4 = trunc i32 %or to i16
  store i8 3, ptr %q, align 1
  %arrayidx5 = getelementptr inbounds i8, ptr %p, i64 0
  %2 = load i8, ptr %arrayidx5, align 1
  %conv6 = zext i8 %2 to i32
  %arrayidx7 = getelementptr inbounds i8, ptr %p, i64 1
  %3 = load i8, ptr %arrayidx7, align 1
  %conv8 = zext i8 %3 to i16
  %conv9 = zext i16 %conv8 to i32
  %shl10 = shl i32 %conv9, 8
  %or11 = or i32 %shl10, %conv6
  %conv12 = trunc i32 %or11 to i16
  %conv13 = zext i16 %conv4 to i32
  %conv14 = zext i16 %conv12 to i32
  %xor = xor i32 %conv14, %conv13
  %conv15 = trunc i32 %xor to i16
  ret i16 %conv15
}

define zeroext i8 @arms_load_in_turn.reassociate(ptr noundef %p, ptr noundef %q, i8 noundef zeroext %x) {
entry:
  %conv = zext i8 %x to i32
  %cmp = icmp sgt i32 %conv, 9
  br i1 %cmp, label %if.then, label %if.else

if.then:
  %0 = load i8, ptr %p, align 1
  br label %if.end

if.else:
  %1 = load i8, ptr %q, align 1
  br label %if.end

if.end:
  %r.0 = phi i8 [ %0, %if.then ], [ %1, %if.else ]
  %conv2 = zext i8 %r.0 to i32
  %2 = load i8, ptr %p, align 1
  %conv3 = zext i8 %2 to i32
  %add = add nsw i32 %conv3, %conv2
  %conv4 = trunc i32 %add to i8
  ret i8 %conv4
}

define i32 @loop_reads.reassociate(ptr %p, ptr %q, i32 %x) {
entry:
  br label %head

head:
  %i = phi i32 [ 0, %entry ], [ %j, %head ]
  %s = phi i32 [ 0, %entry ], [ %u, %head ]
  %v = load i32, ptr %p, align 4
  %w = load i32, ptr %q, align 4
  %k = mul i32 %w, %v
  %u = add i32 %k, %s
  %j = add i32 %i, 1
  %t = icmp ult i32 %j, 3
  br i1 %t, label %head, label %exit

exit:
  store i32 %u, ptr %p, align 4
  ret i32 %u
}

define zeroext i8 @count_down.reassociate(ptr noundef %p, ptr noundef %q) {
entry:
  %0 = load i8, ptr %p, align 1
  %conv = zext i8 %0 to i32
  %and = and i32 %conv, 3
  %conv1 = trunc i32 %and to i8
  br label %while.cond

while.cond:
  %n.0 = phi i8 [ %conv1, %entry ], [ %dec, %while.body ]
  %s.0 = phi i8 [ 0, %entry ], [ %conv4, %while.body ]
  %tobool = icmp ne i8 %n.0, 0
  br i1 %tobool, label %while.body, label %while.end

while.body:
  %1 = load i8, ptr %q, align 1
  %conv2 = zext i8 %1 to i32
  %conv3 = zext i8 %s.0 to i32
  %add = add nsw i32 %conv2, %conv3
  %conv4 = trunc i32 %add to i8
  %dec = add i8 %n.0, -1
  br label %while.cond

while.end:
  ret i8 %s.0
}

define i32 @local_pointer.sccp(ptr noundef %p, ptr noundef %q, i1 noundef zeroext %c) {
entry:
  %storedv = zext i1 %c to i8
  %loadedv = trunc nuw i8 %storedv to i1
  br i1 %loadedv, label %if.then, label %if.end

if.then:
  br label %if.end

if.end:
  %s.0 = phi ptr [ %q, %if.then ], [ %p, %entry ]
  store i32 8, ptr %s.0, align 4
  %0 = load i32, ptr %p, align 4
  ret i32 %0
}

define void @loop_of_two.sccp(ptr %p, ptr %q, i8 %n) {
entry:
  %m = and i8 %n, 1
  br label %head

head:
  %i = phi i8 [ 0, %entry ], [ %j, %body ]
  %t = icmp ule i8 %i, %m
  br i1 %t, label %body, label %exit

body:
  %v = load i8, ptr %q, align 1
  %s = mul nuw nsw i8 %m, 3
  %u = add i8 %v, %s
  store i8 %u, ptr %p, align 1
  %j = add i8 %i, 1
  br label %head

exit:
  ret void
}

define void @negated_twice.sccp(ptr noundef %p, ptr noundef %q, i1 noundef zeroext %c) {
entry:
  %storedv = zext i1 %c to i8
  %loadedv = trunc nuw i8 %storedv to i1
  %lnot = xor i1 %loadedv, true
  %storedv1 = zext i1 %lnot to i8
  %loadedv2 = trunc nuw i8 %storedv1 to i1
  br i1 %loadedv2, label %if.else, label %if.then

if.then:
  %0 = load i8, ptr %q, align 1
  store i8 %0, ptr %p, align 1
  br label %if.end

if.else:
  store i8 1, ptr %q, align 1
  br label %if.end

if.end:
  ret void
}

define i32 @local_of_pointers.sccp(ptr noundef %p, ptr noundef %q, i1 noundef zeroext %c) {
entry:
  %t = alloca [2 x ptr], align 16
  %storedv = zext i1 %c to i8
  %arrayidx = getelementptr inbounds [2 x ptr], ptr %t, i64 0, i64 0
  store ptr %p, ptr %arrayidx, align 16
  %arrayidx1 = getelementptr inbounds [2 x ptr], ptr %t, i64 0, i64 1
  store ptr %q, ptr %arrayidx1, align 8
  %arrayidx2 = getelementptr inbounds [2 x ptr], ptr %t, i64 0, i64 0
  %0 = load ptr, ptr %arrayidx2, align 16
  store i32 4, ptr %0, align 4
  %loadedv = trunc nuw i8 %storedv to i1
  %idxprom = zext i1 %loadedv to i64
  %arrayidx3 = getelementptr inbounds [2 x ptr], ptr %t, i64 0, i64 %idxprom
  %1 = load ptr, ptr %arrayidx3, align 8
  %2 = load i32, ptr %1, align 4
  ret i32 %2
}

define i32 @test_again.sccp(ptr noundef %p, ptr noundef %q, i1 noundef zeroext %c) {
entry:
  %storedv = zext i1 %c to i8
  %loadedv = trunc nuw i8 %storedv to i1
  br i1 %loadedv, label %if.then, label %if.end

if.then:
  %0 = load i32, ptr %p, align 4
  br label %if.end

if.end:
  %r.0 = phi i32 [ %0, %if.then ], [ 0, %entry ]
  store i32 %r.0, ptr %q, align 4
  %loadedv1 = trunc nuw i8 %storedv to i1
  br i1 %loadedv1, label %if.then2, label %if.end3

if.then2:
  %1 = load i32, ptr %p, align 4
  %add = add i32 %r.0, %1
  br label %if.end3

if.end3:
  %r.1 = phi i32 [ %add, %if.then2 ], [ %r.0, %if.end ]
  ret i32 %r.1
}

define i32 @arms_load_both.sccp(ptr noundef %p, ptr noundef %q, i1 noundef zeroext %c) {
entry:
  %storedv = zext i1 %c to i8
  %loadedv = trunc nuw i8 %storedv to i1
  br i1 %loadedv, label %if.then, label %if.end

if.then:
  %0 = load i32, ptr %p, align 4
  %1 = load i32, ptr %q, align 4
  %add = add i32 %0, %1
  br label %return

if.end:
  %2 = load i32, ptr %p, align 4
  %3 = load i32, ptr %q, align 4
  %sub = sub i32 %2, %3
  br label %return

return:
  %retval.0 = phi i32 [ %add, %if.then ], [ %sub, %if.end ]
  ret i32 %retval.0
}
