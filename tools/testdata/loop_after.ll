define i8 @count(i8 %n) {
entry:
  br label %loop
loop:
  %i = phi i8 [ 0, %entry ], [ %j, %loop ]
  %j = add i8 %i, 1
  %c = icmp ult i8 %j, %n
  br i1 %c, label %loop, label %done
done:
  %four = icmp eq i8 %j, 4
  %r = select i1 %four, i8 0, i8 %j
  ret i8 %r
}
