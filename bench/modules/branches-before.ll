; Functions over memory, before what LLVM 19.1.7 made of them by simplifycfg, jump-threading, lower-switch and mergereturn; the name's last part is the pass.

define i32 @choose_load.lower-switch(ptr noundef %p, ptr noundef %q, ptr noundef %r, i8 noundef zeroext %x) {
entry:
  %conv = zext i8 %x to i32
  %and = and i32 %conv, 3
  switch i32 %and, label %sw.default [
    i32 0, label %sw.bb
    i32 1, label %sw.bb1
    i32 2, label %sw.bb2
  ]

sw.bb:
  %0 = load i32, ptr %p, align 4
  br label %return

sw.bb1:
  %1 = load i32, ptr %q, align 4
  br label %return

sw.bb2:
  %2 = load i32, ptr %r, align 4
  br label %return

sw.default:
  br label %return

return:
  %retval.0 = phi i32 [ 0, %sw.default ], [ %2, %sw.bb2 ], [ %1, %sw.bb1 ], [ %0, %sw.bb ]
  ret i32 %retval.0
}

define void @choose_store.lower-switch(ptr noundef %p, ptr noundef %q, i8 noundef zeroext %x) {
entry:
  %conv = zext i8 %x to i32
  switch i32 %conv, label %sw.default [
    i32 0, label %sw.bb
    i32 1, label %sw.bb1
    i32 2, label %sw.bb2
  ]

sw.bb:
  store i8 1, ptr %p, align 1
  br label %sw.epilog

sw.bb1:
  store i8 1, ptr %q, align 1
  br label %sw.epilog

sw.bb2:
  store i8 1, ptr %p, align 1
  br label %sw.epilog

sw.default:
  store i8 2, ptr %q, align 1
  br label %sw.epilog

sw.epilog:
  ret void
}

define ptr @pointer_loaded_again.mergereturn(ptr %p, ptr %q, ptr %r) {
  %a = load ptr, ptr %p, align 8
  %b = load ptr, ptr %q, align 8
  store ptr %a, ptr %r, align 8
  %c = load ptr, ptr %r, align 8
  %t = icmp eq ptr %c, %a
  br i1 %t, label %same, label %other

same:
  ret ptr %b

other:
  %d = load ptr, ptr %p, align 8
  ret ptr %d
}

define i32 @three_returns.mergereturn(ptr %p, ptr %q, i32 %x) {
  %t = icmp ult i32 %x, 4
  br i1 %t, label %a, label %b

a:
  store i32 %x, ptr %p, align 4
  %v = load i32, ptr %q, align 4
  ret i32 %v

b:
  %s = icmp ult i32 %x, 9
  br i1 %s, label %c, label %d

c:
  %w = load i32, ptr %p, align 4
  store i32 %w, ptr %q, align 4
  ret i32 %w

d:
  ret i32 0
}

define i8 @two_returns_bytes.mergereturn(ptr %p, ptr %q) {
  %v = load i8, ptr %p, align 1
  %w = load i8, ptr %q, align 1
  %t = icmp slt i8 %v, %w
  br i1 %t, label %a, label %b

a:
  store i8 %v, ptr %q, align 1
  ret i8 %w

b:
  store i8 %w, ptr %p, align 1
  ret i8 %v
}

define ptr @return_of_either.mergereturn(ptr %p, ptr %q, i1 %c) {
  br i1 %c, label %a, label %b

a:
  %v = load ptr, ptr %p, align 8
  ret ptr %v

b:
  store ptr null, ptr %q, align 8
  ret ptr %q
}

define void @return_of_switch.lower-switch(ptr %p, ptr %q, i8 %x) {
  switch i8 %x, label %d [
    i8 0, label %a
    i8 1, label %b
    i8 5, label %a
  ]

a:
  store i8 %x, ptr %p, align 1
  ret void

b:
  %v = load i8, ptr %p, align 1
  store i8 %v, ptr %q, align 1
  ret void

d:
  ret void
}

define void @return_of_switch.mergereturn(ptr %p, ptr %q, i8 %x) {
  switch i8 %x, label %d [
    i8 0, label %a
    i8 1, label %b
    i8 5, label %a
  ]

a:
  store i8 %x, ptr %p, align 1
  ret void

b:
  %v = load i8, ptr %p, align 1
  store i8 %v, ptr %q, align 1
  ret void

d:
  ret void
}

define i32 @negated_by_xor.mergereturn(ptr %p, ptr %q, i32 %x) {
  %t = icmp sgt i32 %x, 3
  %n = xor i1 %t, true
  br i1 %n, label %a, label %b

a:
  %v = load i32, ptr %p, align 4
  store i32 %v, ptr %q, align 4
  ret i32 %v

b:
  %w = load i32, ptr %q, align 4
  store i32 %w, ptr %p, align 4
  ret i32 %w
}

define i32 @case_in_turn.lower-switch(ptr %p, ptr %q, i32 %x) {
entry:
  switch i32 %x, label %d [
    i32 1, label %a
    i32 2, label %b
    i32 3, label %c
    i32 9, label %b
  ]

a:
  %v = load i32, ptr %p, align 4
  br label %e

b:
  %w = load i32, ptr %q, align 4
  br label %e

c:
  store i32 3, ptr %p, align 4
  br label %e

d:
  br label %e

e:
  %r = phi i32 [ %v, %a ], [ %w, %b ], [ 3, %c ], [ 0, %d ]
  ret i32 %r
}

define void @accumulate.simplifycfg(ptr noundef %p, ptr noundef %q) {
entry:
  br label %for.cond

for.cond:
  %i.0 = phi i8 [ 0, %entry ], [ %inc, %for.inc ]
  %conv = zext i8 %i.0 to i32
  %cmp = icmp slt i32 %conv, 3
  br i1 %cmp, label %for.body, label %for.end

for.body:
  %0 = load i32, ptr %q, align 4
  %1 = load i32, ptr %p, align 4
  %add = add i32 %1, %0
  store i32 %add, ptr %p, align 4
  br label %for.inc

for.inc:
  %inc = add i8 %i.0, 1
  br label %for.cond

for.end:
  ret void
}

define i32 @chain_of_tests.simplifycfg(ptr noundef %p, ptr noundef %q, i32 noundef %x) {
entry:
  %cmp = icmp eq i32 %x, 1
  br i1 %cmp, label %if.then, label %if.end

if.then:
  %0 = load i32, ptr %p, align 4
  br label %return

if.end:
  %cmp1 = icmp eq i32 %x, 4
  br i1 %cmp1, label %if.then2, label %if.end3

if.then2:
  %1 = load i32, ptr %q, align 4
  br label %return

if.end3:
  %cmp4 = icmp eq i32 %x, 6
  br i1 %cmp4, label %if.then5, label %if.end6

if.then5:
  %2 = load i32, ptr %p, align 4
  br label %return

if.end6:
  br label %return

return:
  %retval.0 = phi i32 [ %0, %if.then ], [ %1, %if.then2 ], [ %2, %if.then5 ], [ 7, %if.end6 ]
  ret i32 %retval.0
}

define zeroext i8 @both_tests.simplifycfg(ptr noundef %p, ptr noundef %q) {
entry:
  %0 = load i8, ptr %p, align 1
  %conv = zext i8 %0 to i32
  %cmp = icmp sgt i32 %conv, 3
  br i1 %cmp, label %land.lhs.true, label %if.end

land.lhs.true:
  %1 = load i8, ptr %q, align 1
  %conv2 = zext i8 %1 to i32
  %cmp3 = icmp sgt i32 %conv2, 3
  br i1 %cmp3, label %if.then, label %if.end

if.then:
  store i8 3, ptr %p, align 1
  br label %return

if.end:
  br label %return

return:
  %retval.0 = phi i8 [ 1, %if.then ], [ 0, %if.end ]
  ret i8 %retval.0
}

define ptr @pointer_twice.simplifycfg(ptr noundef %p, ptr noundef %q) {
entry:
  %0 = load ptr, ptr %p, align 8
  %cmp = icmp eq ptr %0, %q
  br i1 %cmp, label %if.then, label %if.end

if.then:
  br label %return

if.end:
  %1 = load ptr, ptr %p, align 8
  br label %return

return:
  %retval.0 = phi ptr [ %0, %if.then ], [ %1, %if.end ]
  ret ptr %retval.0
}

define void @fill_from.simplifycfg(ptr noundef %p, ptr noundef %q) {
entry:
  br label %for.cond

for.cond:
  %i.0 = phi i8 [ 0, %entry ], [ %inc, %for.inc ]
  %conv = zext i8 %i.0 to i32
  %cmp = icmp slt i32 %conv, 2
  br i1 %cmp, label %for.body, label %for.end

for.body:
  %0 = load i8, ptr %q, align 1
  %idxprom = zext i8 %i.0 to i64
  %arrayidx = getelementptr inbounds i8, ptr %p, i64 %idxprom
  store i8 %0, ptr %arrayidx, align 1
  br label %for.inc

for.inc:
  %inc = add i8 %i.0, 1
  br label %for.cond

for.end:
  ret void
}

define void @copy_bytes.simplifycfg(ptr noundef %p, ptr noundef %q) {
entry:
  br label %for.cond

for.cond:
  %i.0 = phi i8 [ 0, %entry ], [ %inc, %for.inc ]
  %conv = zext i8 %i.0 to i32
  %cmp = icmp slt i32 %conv, 3
  br i1 %cmp, label %for.body, label %for.end

for.body:
  %idxprom = zext i8 %i.0 to i64
  %arrayidx = getelementptr inbounds i8, ptr %q, i64 %idxprom
  %0 = load i8, ptr %arrayidx, align 1
  %idxprom2 = zext i8 %i.0 to i64
  %arrayidx3 = getelementptr inbounds i8, ptr %p, i64 %idxprom2
  store i8 %0, ptr %arrayidx3, align 1
  br label %for.inc

for.inc:
  %inc = add i8 %i.0, 1
  br label %for.cond

for.end:
  ret void
}

define zeroext i8 @same_bytes.simplifycfg(ptr noundef %p, ptr noundef %q) {
entry:
  br label %for.cond

for.cond:
  %i.0 = phi i8 [ 0, %entry ], [ %inc, %for.inc ]
  %conv = zext i8 %i.0 to i32
  %cmp = icmp slt i32 %conv, 3
  br i1 %cmp, label %for.body, label %for.end

for.body:
  %idxprom = zext i8 %i.0 to i64
  %arrayidx = getelementptr inbounds i8, ptr %p, i64 %idxprom
  %0 = load i8, ptr %arrayidx, align 1
  %conv2 = zext i8 %0 to i32
  %idxprom3 = zext i8 %i.0 to i64
  %arrayidx4 = getelementptr inbounds i8, ptr %q, i64 %idxprom3
  %1 = load i8, ptr %arrayidx4, align 1
  %conv5 = zext i8 %1 to i32
  %cmp6 = icmp ne i32 %conv2, %conv5
  br i1 %cmp6, label %if.then, label %if.end

if.then:
  br label %return

if.end:
  br label %for.inc

for.inc:
  %inc = add i8 %i.0, 1
  br label %for.cond

for.end:
  br label %return

return:
  %retval.0 = phi i8 [ 0, %if.then ], [ 1, %for.end ]
  ret i8 %retval.0
}

define void @conditional_stores.simplifycfg(ptr noundef %p, i1 noundef zeroext %c, i1 noundef zeroext %d, ptr noundef %q) {
entry:
  %storedv = zext i1 %c to i8
  %storedv1 = zext i1 %d to i8
  %loadedv = trunc i8 %storedv to i1
  br i1 %loadedv, label %if.then, label %if.end

if.then:
  store i32 1, ptr %p, align 4
  br label %if.end

if.end:
  %loadedv2 = trunc i8 %storedv1 to i1
  br i1 %loadedv2, label %if.then3, label %if.end4

if.then3:
  store i32 2, ptr %p, align 4
  br label %if.end4

if.end4:
  store i32 0, ptr %q, align 4
  ret void
}

define i32 @arms_load_both.simplifycfg(ptr noundef %p, ptr noundef %q, i1 noundef zeroext %c) {
entry:
  %storedv = zext i1 %c to i8
  %loadedv = trunc i8 %storedv to i1
  br i1 %loadedv, label %if.then, label %if.end

if.then:
  %0 = load i32, ptr %p, align 4
  %1 = load i32, ptr %q, align 4
  %add = add i32 %0, %1
  br label %return

if.end:
  %2 = load i32, ptr %p, align 4
  %3 = load i32, ptr %q, align 4
  %sub = sub i32 %2, %3
  br label %return

return:
  %retval.0 = phi i32 [ %add, %if.then ], [ %sub, %if.end ]
  ret i32 %retval.0
}

define void @overwritten_in_both.simplifycfg(ptr noundef %p, ptr noundef %q, i1 noundef zeroext %c) {
entry:
  %storedv = zext i1 %c to i8
  store i32 1, ptr %p, align 4
  %loadedv = trunc i8 %storedv to i1
  br i1 %loadedv, label %if.then, label %if.else

if.then:
  %0 = load i32, ptr %q, align 4
  store i32 %0, ptr %p, align 4
  br label %if.end

if.else:
  store i32 3, ptr %p, align 4
  br label %if.end

if.end:
  ret void
}

define void @store_in_both_arms.simplifycfg(ptr noundef %p, ptr noundef %q, i1 noundef zeroext %c) {
entry:
  %storedv = zext i1 %c to i8
  %loadedv = trunc i8 %storedv to i1
  br i1 %loadedv, label %if.then, label %if.else

if.then:
  %0 = load i32, ptr %q, align 4
  store i32 %0, ptr %p, align 4
  br label %if.end

if.else:
  store i32 5, ptr %p, align 4
  br label %if.end

if.end:
  ret void
}

define void @store_in_arm_after.simplifycfg(ptr noundef %p, ptr noundef %q, i1 noundef zeroext %c) {
entry:
  %storedv = zext i1 %c to i8
  store i32 1, ptr %p, align 4
  %loadedv = trunc i8 %storedv to i1
  br i1 %loadedv, label %if.then, label %if.end

if.then:
  store i32 2, ptr %p, align 4
  br label %if.end

if.end:
  store i32 3, ptr %q, align 4
  ret void
}

define void @pair_of_locals.simplifycfg(ptr noundef %p, ptr noundef %q, i1 noundef zeroext %c) {
entry:
  %storedv = zext i1 %c to i8
  %0 = load i8, ptr %p, align 1
  %1 = load i8, ptr %q, align 1
  %loadedv = trunc i8 %storedv to i1
  br i1 %loadedv, label %if.then, label %if.end

if.then:
  br label %if.end

if.end:
  %t.sroa.0.0 = phi i8 [ %1, %if.then ], [ %0, %entry ]
  store i8 %t.sroa.0.0, ptr %p, align 1
  %conv = zext i8 %t.sroa.0.0 to i32
  %conv7 = zext i8 %1 to i32
  %add = add nsw i32 %conv, %conv7
  %conv8 = trunc i32 %add to i8
  store i8 %conv8, ptr %q, align 1
  ret void
}

define i32 @same_returns.simplifycfg(ptr noundef %p, ptr noundef %q, i1 noundef zeroext %c) {
entry:
  %storedv = zext i1 %c to i8
  %loadedv = trunc i8 %storedv to i1
  br i1 %loadedv, label %if.then, label %if.end

if.then:
  store i32 3, ptr %p, align 4
  %0 = load i32, ptr %q, align 4
  br label %return

if.end:
  store i32 4, ptr %p, align 4
  %1 = load i32, ptr %q, align 4
  br label %return

return:
  %retval.0 = phi i32 [ %0, %if.then ], [ %1, %if.end ]
  ret i32 %retval.0
}

define i32 @compared_twice.simplifycfg(ptr noundef %p, ptr noundef %q) {
entry:
  %0 = load i32, ptr %p, align 4
  %1 = load i32, ptr %q, align 4
  %cmp = icmp slt i32 %0, %1
  br i1 %cmp, label %if.then, label %if.end

if.then:
  br label %return

if.end:
  %2 = load i32, ptr %p, align 4
  %3 = load i32, ptr %q, align 4
  %cmp1 = icmp sgt i32 %2, %3
  br i1 %cmp1, label %if.then2, label %if.end3

if.then2:
  br label %return

if.end3:
  %4 = load i32, ptr %p, align 4
  %5 = load i32, ptr %q, align 4
  %cmp4 = icmp eq i32 %4, %5
  %conv = zext i1 %cmp4 to i32
  br label %return

return:
  %retval.0 = phi i32 [ 1, %if.then ], [ 2, %if.then2 ], [ %conv, %if.end3 ]
  ret i32 %retval.0
}

define ptr @pointer_loaded_again.simplifycfg(ptr %p, ptr %q, ptr %r) {
  %a = load ptr, ptr %p, align 8
  %b = load ptr, ptr %q, align 8
  store ptr %a, ptr %r, align 8
  %c = load ptr, ptr %r, align 8
  %t = icmp eq ptr %c, %a
  br i1 %t, label %same, label %other

same:
  ret ptr %b

other:
  %d = load ptr, ptr %p, align 8
  ret ptr %d
}

define i32 @load_hoisted_partly.simplifycfg(ptr %p, ptr %q, i1 %c) {
  br i1 %c, label %a, label %b

a:
  %v = load i32, ptr %p, align 4
  store i32 1, ptr %q, align 4
  br label %e

b:
  store i32 2, ptr %q, align 4
  br label %e

e:
  %w = load i32, ptr %p, align 4
  ret i32 %w
}

define i32 @known_in_arm.simplifycfg(ptr noundef %p, ptr noundef %q) {
entry:
  %0 = load i32, ptr %p, align 4
  %cmp = icmp eq i32 %0, 7
  br i1 %cmp, label %if.then, label %if.end

if.then:
  %add = add i32 %0, 1
  store i32 %add, ptr %q, align 4
  %1 = load i32, ptr %p, align 4
  br label %return

if.end:
  %2 = load i32, ptr %q, align 4
  br label %return

return:
  %retval.0 = phi i32 [ %1, %if.then ], [ %2, %if.end ]
  ret i32 %retval.0
}

define void @twice_in_loop.simplifycfg(ptr noundef %p, ptr noundef %q, i8 noundef zeroext %n) {
entry:
  br label %for.cond

for.cond:
  %i.0 = phi i8 [ 0, %entry ], [ %inc, %for.inc ]
  %conv = zext i8 %i.0 to i32
  %conv1 = zext i8 %n to i32
  %and = and i32 %conv1, 1
  %cmp = icmp slt i32 %conv, %and
  br i1 %cmp, label %for.body, label %for.end

for.body:
  %0 = load i8, ptr %q, align 1
  store i8 %0, ptr %p, align 1
  %1 = load i8, ptr %q, align 1
  %conv3 = zext i8 %1 to i32
  %add = add nsw i32 %conv3, 1
  %conv4 = trunc i32 %add to i8
  store i8 %conv4, ptr %p, align 1
  br label %for.inc

for.inc:
  %inc = add i8 %i.0, 1
  br label %for.cond

for.end:
  ret void
}

define i32 @choose_load.simplifycfg(ptr noundef %p, ptr noundef %q, ptr noundef %r, i8 noundef zeroext %x) {
entry:
  %conv = zext i8 %x to i32
  %and = and i32 %conv, 3
  switch i32 %and, label %sw.default [
    i32 0, label %sw.bb
    i32 1, label %sw.bb1
    i32 2, label %sw.bb2
  ]

sw.bb:
  %0 = load i32, ptr %p, align 4
  br label %return

sw.bb1:
  %1 = load i32, ptr %q, align 4
  br label %return

sw.bb2:
  %2 = load i32, ptr %r, align 4
  br label %return

sw.default:
  br label %return

return:
  %retval.0 = phi i32 [ 0, %sw.default ], [ %2, %sw.bb2 ], [ %1, %sw.bb1 ], [ %0, %sw.bb ]
  ret i32 %retval.0
}

define i32 @three_returns.simplifycfg(ptr %p, ptr %q, i32 %x) {
  %t = icmp ult i32 %x, 4
  br i1 %t, label %a, label %b

a:
  store i32 %x, ptr %p, align 4
  %v = load i32, ptr %q, align 4
  ret i32 %v

b:
  %s = icmp ult i32 %x, 9
  br i1 %s, label %c, label %d

c:
  %w = load i32, ptr %p, align 4
  store i32 %w, ptr %q, align 4
  ret i32 %w

d:
  ret i32 0
}

define i8 @two_returns_bytes.simplifycfg(ptr %p, ptr %q) {
  %v = load i8, ptr %p, align 1
  %w = load i8, ptr %q, align 1
  %t = icmp slt i8 %v, %w
  br i1 %t, label %a, label %b

a:
  store i8 %v, ptr %q, align 1
  ret i8 %w

b:
  store i8 %w, ptr %p, align 1
  ret i8 %v
}

define i32 @if_converted.simplifycfg(ptr noundef %p, ptr noundef %q, i32 noundef %x) {
entry:
  %0 = load i32, ptr %p, align 4
  %1 = load i32, ptr %q, align 4
  %cmp = icmp ult i32 %0, %x
  br i1 %cmp, label %if.then, label %if.else

if.then:
  br label %if.end

if.else:
  br label %if.end

if.end:
  %r.0 = phi i32 [ %1, %if.then ], [ %0, %if.else ]
  store i32 %r.0, ptr %p, align 4
  ret i32 %r.0
}

define i32 @pointers_equal.simplifycfg(ptr noundef %p, ptr noundef %q) {
entry:
  %cmp = icmp eq ptr %p, %q
  br i1 %cmp, label %if.then, label %if.end

if.then:
  store i32 2, ptr %p, align 4
  %0 = load i32, ptr %q, align 4
  br label %return

if.end:
  %1 = load i32, ptr %p, align 4
  br label %return

return:
  %retval.0 = phi i32 [ %0, %if.then ], [ %1, %if.end ]
  ret i32 %retval.0
}

define i64 @select_store.jump-threading(ptr noundef %p, ptr noundef %q, i1 noundef zeroext %c, i64 noundef %x) {
entry:
  %storedv = zext i1 %c to i8
  %loadedv = trunc i8 %storedv to i1
  br i1 %loadedv, label %cond.true, label %cond.false

cond.true:
  br label %cond.end

cond.false:
  br label %cond.end

cond.end:
  %cond = phi ptr [ %p, %cond.true ], [ %q, %cond.false ]
  store i64 %x, ptr %cond, align 8
  %0 = load i64, ptr %cond, align 8
  ret i64 %0
}

define void @accumulate.jump-threading(ptr noundef %p, ptr noundef %q) {
entry:
  br label %for.cond

for.cond:
  %i.0 = phi i8 [ 0, %entry ], [ %inc, %for.inc ]
  %conv = zext i8 %i.0 to i32
  %cmp = icmp slt i32 %conv, 3
  br i1 %cmp, label %for.body, label %for.end

for.body:
  %0 = load i32, ptr %q, align 4
  %1 = load i32, ptr %p, align 4
  %add = add i32 %1, %0
  store i32 %add, ptr %p, align 4
  br label %for.inc

for.inc:
  %inc = add i8 %i.0, 1
  br label %for.cond

for.end:
  ret void
}

define i32 @chain_of_tests.jump-threading(ptr noundef %p, ptr noundef %q, i32 noundef %x) {
entry:
  %cmp = icmp eq i32 %x, 1
  br i1 %cmp, label %if.then, label %if.end

if.then:
  %0 = load i32, ptr %p, align 4
  br label %return

if.end:
  %cmp1 = icmp eq i32 %x, 4
  br i1 %cmp1, label %if.then2, label %if.end3

if.then2:
  %1 = load i32, ptr %q, align 4
  br label %return

if.end3:
  %cmp4 = icmp eq i32 %x, 6
  br i1 %cmp4, label %if.then5, label %if.end6

if.then5:
  %2 = load i32, ptr %p, align 4
  br label %return

if.end6:
  br label %return

return:
  %retval.0 = phi i32 [ %0, %if.then ], [ %1, %if.then2 ], [ %2, %if.then5 ], [ 7, %if.end6 ]
  ret i32 %retval.0
}

define i32 @case_in_turn.jump-threading(ptr %p, ptr %q, i32 %x) {
entry:
  switch i32 %x, label %d [
    i32 1, label %a
    i32 2, label %b
    i32 3, label %c
    i32 9, label %b
  ]

a:
  %v = load i32, ptr %p, align 4
  br label %e

b:
  %w = load i32, ptr %q, align 4
  br label %e

c:
  store i32 3, ptr %p, align 4
  br label %e

d:
  br label %e

e:
  %r = phi i32 [ %v, %a ], [ %w, %b ], [ 3, %c ], [ 0, %d ]
  ret i32 %r
}

define void @fill_from.jump-threading(ptr noundef %p, ptr noundef %q) {
entry:
  br label %for.cond

for.cond:
  %i.0 = phi i8 [ 0, %entry ], [ %inc, %for.inc ]
  %conv = zext i8 %i.0 to i32
  %cmp = icmp slt i32 %conv, 2
  br i1 %cmp, label %for.body, label %for.end

for.body:
  %0 = load i8, ptr %q, align 1
  %idxprom = zext i8 %i.0 to i64
  %arrayidx = getelementptr inbounds i8, ptr %p, i64 %idxprom
  store i8 %0, ptr %arrayidx, align 1
  br label %for.inc

for.inc:
  %inc = add i8 %i.0, 1
  br label %for.cond

for.end:
  ret void
}

define zeroext i8 @find_byte.jump-threading(ptr noundef %p, ptr noundef %q) {
entry:
  br label %for.cond

for.cond:
  %i.0 = phi i8 [ 0, %entry ], [ %inc, %for.inc ]
  %conv = zext i8 %i.0 to i32
  %cmp = icmp slt i32 %conv, 3
  br i1 %cmp, label %for.body, label %for.end

for.body:
  %idxprom = zext i8 %i.0 to i64
  %arrayidx = getelementptr inbounds i8, ptr %p, i64 %idxprom
  %0 = load i8, ptr %arrayidx, align 1
  %conv2 = zext i8 %0 to i32
  %1 = load i8, ptr %q, align 1
  %conv3 = zext i8 %1 to i32
  %cmp4 = icmp eq i32 %conv2, %conv3
  br i1 %cmp4, label %if.then, label %if.end

if.then:
  br label %return

if.end:
  br label %for.inc

for.inc:
  %inc = add i8 %i.0, 1
  br label %for.cond

for.end:
  br label %return

return:
  %retval.0 = phi i8 [ %i.0, %if.then ], [ 9, %for.end ]
  ret i8 %retval.0
}

define i32 @last_of.jump-threading(ptr noundef %p, ptr noundef %q, i8 noundef zeroext %n) {
entry:
  br label %for.cond

for.cond:
  %r.0 = phi i32 [ 0, %entry ], [ %0, %for.inc ]
  %i.0 = phi i8 [ 0, %entry ], [ %inc, %for.inc ]
  %conv = zext i8 %i.0 to i32
  %conv1 = zext i8 %n to i32
  %and = and i32 %conv1, 3
  %cmp = icmp slt i32 %conv, %and
  br i1 %cmp, label %for.body, label %for.end

for.body:
  %0 = load i32, ptr %p, align 4
  store i32 %0, ptr %q, align 4
  br label %for.inc

for.inc:
  %inc = add i8 %i.0, 1
  br label %for.cond

for.end:
  ret i32 %r.0
}

define i32 @pointer_of_arm.jump-threading(ptr noundef %p, ptr noundef %q, ptr noundef %r, i1 noundef zeroext %c) {
entry:
  %storedv = zext i1 %c to i8
  %loadedv = trunc i8 %storedv to i1
  br i1 %loadedv, label %if.then, label %if.else

if.then:
  store i32 99, ptr %r, align 4
  %0 = load i32, ptr %p, align 4
  %1 = load i32, ptr %q, align 4
  %cmp = icmp ult i32 %0, %1
  br i1 %cmp, label %cond.true, label %cond.false

cond.true:
  br label %cond.end

cond.false:
  br label %cond.end

cond.end:
  %cond = phi ptr [ %p, %cond.true ], [ %q, %cond.false ]
  br label %if.end

if.else:
  br label %if.end

if.end:
  %s.0 = phi ptr [ %cond, %cond.end ], [ %p, %if.else ]
  %2 = load i32, ptr %s.0, align 4
  ret i32 %2
}
