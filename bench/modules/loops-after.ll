; Functions over memory, after what LLVM 19.1.7 made of them by licm; the name's last part is the pass.

define zeroext i8 @sum_both.licm(ptr noundef %p, ptr noundef %q) {
entry:
  br label %for.cond

for.cond:
  %s.0 = phi i8 [ 0, %entry ], [ %conv5, %for.inc ]
  %i.0 = phi i8 [ 0, %entry ], [ %inc, %for.inc ]
  %conv = zext i8 %i.0 to i32
  %cmp = icmp slt i32 %conv, 3
  br i1 %cmp, label %for.body, label %for.end

for.body:
  %idxprom = zext i8 %i.0 to i64
  %arrayidx = getelementptr inbounds i8, ptr %p, i64 %idxprom
  %0 = load i8, ptr %arrayidx, align 1
  %conv2 = zext i8 %0 to i32
  %1 = load i8, ptr %q, align 1
  %conv3 = zext i8 %1 to i32
  %mul = mul nsw i32 %conv2, %conv3
  %conv4 = zext i8 %s.0 to i32
  %add = add nsw i32 %conv4, %mul
  %conv5 = trunc i32 %add to i8
  br label %for.inc

for.inc:
  %inc = add i8 %i.0, 1
  br label %for.cond

for.end:
  %s.0.lcssa = phi i8 [ %s.0, %for.cond ]
  ret i8 %s.0.lcssa
}

define void @fill_invariant.licm(ptr noundef %p, i8 noundef zeroext %x, ptr noundef %q) {
entry:
  %conv2 = zext i8 %x to i32
  %conv3 = zext i8 %x to i32
  %mul = mul nsw i32 %conv2, %conv3
  %add = add nsw i32 %mul, 3
  %conv4 = trunc i32 %add to i8
  br label %for.cond

for.cond:
  %i.0 = phi i8 [ 0, %entry ], [ %inc, %for.inc ]
  %conv = zext i8 %i.0 to i32
  %cmp = icmp slt i32 %conv, 3
  br i1 %cmp, label %for.body, label %for.end

for.body:
  %idxprom = zext i8 %i.0 to i64
  %arrayidx = getelementptr inbounds i8, ptr %p, i64 %idxprom
  store i8 %conv4, ptr %arrayidx, align 1
  br label %for.inc

for.inc:
  %inc = add i8 %i.0, 1
  br label %for.cond

for.end:
  store i8 %x, ptr %q, align 1
  ret void
}

define zeroext i8 @find_byte.licm(ptr noundef %p, ptr noundef %q) {
entry:
  br label %for.cond

for.cond:
  %i.0 = phi i8 [ 0, %entry ], [ %inc, %for.inc ]
  %conv = zext i8 %i.0 to i32
  %cmp = icmp slt i32 %conv, 3
  br i1 %cmp, label %for.body, label %for.end

for.body:
  %idxprom = zext i8 %i.0 to i64
  %arrayidx = getelementptr inbounds i8, ptr %p, i64 %idxprom
  %0 = load i8, ptr %arrayidx, align 1
  %conv2 = zext i8 %0 to i32
  %1 = load i8, ptr %q, align 1
  %conv3 = zext i8 %1 to i32
  %cmp4 = icmp eq i32 %conv2, %conv3
  br i1 %cmp4, label %if.then, label %if.end

if.then:
  %i.0.lcssa1 = phi i8 [ %i.0, %for.body ]
  br label %return

if.end:
  br label %for.inc

for.inc:
  %inc = add i8 %i.0, 1
  br label %for.cond

for.end:
  br label %return

return:
  %retval.0 = phi i8 [ %i.0.lcssa1, %if.then ], [ 9, %for.end ]
  ret i8 %retval.0
}

define i32 @last_of.licm(ptr noundef %p, ptr noundef %q, i8 noundef zeroext %n) {
entry:
  %conv1 = zext i8 %n to i32
  %and = and i32 %conv1, 3
  br label %for.cond

for.cond:
  %r.0 = phi i32 [ 0, %entry ], [ %0, %for.inc ]
  %i.0 = phi i8 [ 0, %entry ], [ %inc, %for.inc ]
  %conv = zext i8 %i.0 to i32
  %cmp = icmp slt i32 %conv, %and
  br i1 %cmp, label %for.body, label %for.end

for.body:
  %0 = load i32, ptr %p, align 4
  store i32 %0, ptr %q, align 4
  br label %for.inc

for.inc:
  %inc = add i8 %i.0, 1
  br label %for.cond

for.end:
  %r.0.lcssa = phi i32 [ %r.0, %for.cond ]
  ret i32 %r.0.lcssa
}

define void @twice_in_loop.licm(ptr noundef %p, ptr noundef %q, i8 noundef zeroext %n) {
entry:
  %conv1 = zext i8 %n to i32
  %and = and i32 %conv1, 1
  br label %for.cond

for.cond:
  %i.0 = phi i8 [ 0, %entry ], [ %inc, %for.inc ]
  %conv = zext i8 %i.0 to i32
  %cmp = icmp slt i32 %conv, %and
  br i1 %cmp, label %for.body, label %for.end

for.body:
  %0 = load i8, ptr %q, align 1
  store i8 %0, ptr %p, align 1
  %1 = load i8, ptr %q, align 1
  %conv3 = zext i8 %1 to i32
  %add = add nsw i32 %conv3, 1
  %conv4 = trunc i32 %add to i8
  store i8 %conv4, ptr %p, align 1
  br label %for.inc

for.inc:
  %inc = add i8 %i.0, 1
  br label %for.cond

for.end:
  ret void
}

define zeroext i8 @count_down.licm(ptr noundef %p, ptr noundef %q) {
entry:
  %0 = load i8, ptr %p, align 1
  %conv = zext i8 %0 to i32
  %and = and i32 %conv, 3
  %conv1 = trunc i32 %and to i8
  br label %while.cond

while.cond:
  %n.0 = phi i8 [ %conv1, %entry ], [ %dec, %while.body ]
  %s.0 = phi i8 [ 0, %entry ], [ %conv4, %while.body ]
  %tobool = icmp ne i8 %n.0, 0
  br i1 %tobool, label %while.body, label %while.end

while.body:
  %1 = load i8, ptr %q, align 1
  %conv2 = zext i8 %1 to i32
  %conv3 = zext i8 %s.0 to i32
  %add = add nsw i32 %conv3, %conv2
  %conv4 = trunc i32 %add to i8
  %dec = add i8 %n.0, -1
  br label %while.cond

while.end:
  %s.0.lcssa = phi i8 [ %s.0, %while.cond ]
  ret i8 %s.0.lcssa
}

define zeroext i8 @walk.licm(ptr noundef %p, ptr noundef %end) {
entry:
  br label %while.cond

while.cond:
  %p.addr.0 = phi ptr [ %p, %entry ], [ %incdec.ptr, %if.end ]
  %s.0 = phi i8 [ 0, %entry ], [ %conv2, %if.end ]
  %cmp = icmp ne ptr %p.addr.0, %end
  br i1 %cmp, label %while.body, label %while.end.loopexit

while.body:
  %0 = load i8, ptr %p.addr.0, align 1
  %conv = zext i8 %0 to i32
  %conv1 = zext i8 %s.0 to i32
  %xor = xor i32 %conv1, %conv
  %conv2 = trunc i32 %xor to i8
  %incdec.ptr = getelementptr inbounds i8, ptr %p.addr.0, i32 1
  %conv3 = zext i8 %conv2 to i32
  %cmp4 = icmp eq i32 %conv3, 1
  br i1 %cmp4, label %if.then, label %if.end

if.then:
  %conv2.lcssa = phi i8 [ %conv2, %while.body ]
  br label %while.end

if.end:
  br label %while.cond

while.end.loopexit:
  %s.0.lcssa = phi i8 [ %s.0, %while.cond ]
  br label %while.end

while.end:
  %s.1 = phi i8 [ %conv2.lcssa, %if.then ], [ %s.0.lcssa, %while.end.loopexit ]
  ret i8 %s.1
}

define i32 @loop_reads.licm(ptr %p, ptr %q, i32 %x) {
entry:
  %v = load i32, ptr %p, align 4
  %w = load i32, ptr %q, align 4
  %k = mul i32 %v, %w
  br label %head

head:
  %i = phi i32 [ 0, %entry ], [ %j, %head ]
  %s = phi i32 [ 0, %entry ], [ %u, %head ]
  %u = add i32 %s, %k
  %j = add i32 %i, 1
  %t = icmp ult i32 %j, 3
  br i1 %t, label %head, label %exit

exit:
  %u.lcssa = phi i32 [ %u, %head ]
  store i32 %u.lcssa, ptr %p, align 4
  ret i32 %u.lcssa
}

define void @loop_of_two.licm(ptr %p, ptr %q, i8 %n) {
entry:
  %m = and i8 %n, 1
  %s = mul i8 %m, 3
  br label %head

head:
  %i = phi i8 [ 0, %entry ], [ %j, %body ]
  %t = icmp ule i8 %i, %m
  br i1 %t, label %body, label %exit

body:
  %v = load i8, ptr %q, align 1
  %u = add i8 %v, %s
  store i8 %u, ptr %p, align 1
  %j = add i8 %i, 1
  br label %head

exit:
  ret void
}
