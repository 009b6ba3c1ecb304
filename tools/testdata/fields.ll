; A field at offset 8 of what %p points to, one at offset 40 in a branch, and a loop of 6 rounds.
define void @src(ptr %p, i32 %x) {
  %field = getelementptr inbounds i8, ptr %p, i64 8
  store i32 %x, ptr %field
  ret void
}

define void @tgt(ptr %p, i32 %x) {
  %field = getelementptr inbounds i8, ptr %p, i64 8
  store i32 12345, ptr %field
  ret void
}

define i32 @src_far(ptr %p, i32 %x) {
entry:
  %small = icmp ult i32 %x, 10
  br i1 %small, label %far, label %end
far:
  %field = getelementptr inbounds i8, ptr %p, i64 40
  store i32 %x, ptr %field
  br label %end
end:
  ret i32 %x
}

define i32 @tgt_far(ptr %p, i32 %x) {
entry:
  %small = icmp ult i32 %x, 10
  br i1 %small, label %far, label %end
far:
  %field = getelementptr inbounds i8, ptr %p, i64 40
  store i32 11, ptr %field
  br label %end
end:
  ret i32 %x
}

define i8 @src_loop(i8 %x) {
entry:
  br label %loop
loop:
  %i = phi i8 [ 0, %entry ], [ %next, %loop ]
  %next = add i8 %i, 1
  %more = icmp ult i8 %next, 6
  br i1 %more, label %loop, label %end
end:
  ret i8 %x
}

define i8 @tgt_loop(i8 %x) {
  ret i8 0
}
