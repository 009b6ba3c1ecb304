; Changes of accesses and of branches, by hand; those named wrong_ are no refinements.

define void @load_added_back_i8(ptr %p, ptr %q) {
  %v = load i8, ptr %p
  store i8 %v, ptr %q
  ret void
}

define void @load_added_back_i32(ptr %p, ptr %q) {
  %v = load i32, ptr %p
  store i32 %v, ptr %q
  ret void
}

define void @load_added_back_i64(ptr %p, ptr %q) {
  %v = load i64, ptr %p
  store i64 %v, ptr %q
  ret void
}

define void @load_added_back_ptr(ptr %p, ptr %q) {
  %v = load ptr, ptr %p
  store ptr %v, ptr %q
  ret void
}

define void @load_stored_back_i8(ptr %p, ptr %q) {
  %v = load i8, ptr %p
  %w = load i8, ptr %q
  store i8 %v, ptr %p
  store i8 %w, ptr %q
  ret void
}

define void @load_stored_back_i32(ptr %p, ptr %q) {
  %v = load i32, ptr %p
  %w = load i32, ptr %q
  store i32 %v, ptr %p
  store i32 %w, ptr %q
  ret void
}

define void @load_stored_back_i64(ptr %p, ptr %q) {
  %v = load i64, ptr %p
  %w = load i64, ptr %q
  store i64 %v, ptr %p
  store i64 %w, ptr %q
  ret void
}

define void @load_stored_back_ptr(ptr %p, ptr %q) {
  %v = load ptr, ptr %p
  %w = load ptr, ptr %q
  store ptr %v, ptr %p
  store ptr %w, ptr %q
  ret void
}

define void @store_back_between_i32(ptr %p, ptr %q) {
  %v = load i32, ptr %p
  store i32 %v, ptr %q
  store i32 %v, ptr %p
  ret void
}

define void @store_back_between_i64(ptr %p, ptr %q) {
  %v = load i64, ptr %p
  store i64 %v, ptr %q
  store i64 %v, ptr %p
  ret void
}

define void @store_back_between_ptr(ptr %p, ptr %q) {
  %v = load ptr, ptr %p
  store ptr %v, ptr %q
  store ptr %v, ptr %p
  ret void
}

define i8 @freeze_added_i8(i1 %c, ptr %p, ptr %q, i8 %x) {
  br i1 %c, label %a, label %b
a:
  store i8 %x, ptr %p
  %v = load i8, ptr %q
  ret i8 %v
b:
  ret i8 0
}

define i32 @freeze_added_i32(i1 %c, ptr %p, ptr %q, i32 %x) {
  br i1 %c, label %a, label %b
a:
  store i32 %x, ptr %p
  %v = load i32, ptr %q
  ret i32 %v
b:
  ret i32 0
}

define i64 @freeze_added_i64(i1 %c, ptr %p, ptr %q, i64 %x) {
  br i1 %c, label %a, label %b
a:
  store i64 %x, ptr %p
  %v = load i64, ptr %q
  ret i64 %v
b:
  ret i64 0
}

define void @freeze_dropped_i8(i8 noundef %x, ptr %p, ptr %q) {
  %d = freeze i8 %x
  %t = icmp eq i8 %d, 0
  br i1 %t, label %a, label %b
a:
  store i8 %d, ptr %p
  ret void
b:
  store i8 %d, ptr %q
  ret void
}

define void @freeze_dropped_i32(i32 noundef %x, ptr %p, ptr %q) {
  %d = freeze i32 %x
  %t = icmp eq i32 %d, 0
  br i1 %t, label %a, label %b
a:
  store i32 %d, ptr %p
  ret void
b:
  store i32 %d, ptr %q
  ret void
}

define void @freeze_dropped_ptr(ptr noundef %x, ptr %p, ptr %q) {
  %d = freeze ptr %x
  %t = icmp eq ptr %d, null
  br i1 %t, label %a, label %b
a:
  store ptr %d, ptr %p
  ret void
b:
  store ptr %d, ptr %q
  ret void
}

define i8 @freeze_of_compare_added_i8(i8 %x, i8 %y, ptr %p, ptr %q) {
  %t = icmp ult i8 %x, %y
  br i1 %t, label %a, label %b
a:
  store i8 %x, ptr %p
  br label %b
b:
  %v = load i8, ptr %q
  ret i8 %v
}

define i32 @freeze_of_compare_added_i32(i32 %x, i32 %y, ptr %p, ptr %q) {
  %t = icmp ult i32 %x, %y
  br i1 %t, label %a, label %b
a:
  store i32 %x, ptr %p
  br label %b
b:
  %v = load i32, ptr %q
  ret i32 %v
}

define void @wrong_freeze_dropped_i32(i1 %c, ptr %p, ptr %q) {
  %d = freeze i1 %c
  br i1 %d, label %a, label %b
a:
  store i32 99, ptr %p
  ret void
b:
  store i32 99, ptr %q
  ret void
}

define i8 @pointer_of_two_blocks_i8(ptr %p, ptr %q, ptr %r, i1 %c) {
  br i1 %c, label %a, label %b
a:
  %v = load i8, ptr %q
  store i8 %v, ptr %r
  br label %e
b:
  br label %e
e:
  %s = phi ptr [ %q, %a ], [ %p, %b ]
  %w = load i8, ptr %s
  ret i8 %w
}

define i32 @pointer_of_two_blocks_i32(ptr %p, ptr %q, ptr %r, i1 %c) {
  br i1 %c, label %a, label %b
a:
  %v = load i32, ptr %q
  store i32 %v, ptr %r
  br label %e
b:
  br label %e
e:
  %s = phi ptr [ %q, %a ], [ %p, %b ]
  %w = load i32, ptr %s
  ret i32 %w
}

define i64 @pointer_of_two_blocks_i64(ptr %p, ptr %q, ptr %r, i1 %c) {
  br i1 %c, label %a, label %b
a:
  %v = load i64, ptr %q
  store i64 %v, ptr %r
  br label %e
b:
  br label %e
e:
  %s = phi ptr [ %q, %a ], [ %p, %b ]
  %w = load i64, ptr %s
  ret i64 %w
}

define ptr @pointer_of_two_blocks_ptr(ptr %p, ptr %q, ptr %r, i1 %c) {
  br i1 %c, label %a, label %b
a:
  %v = load ptr, ptr %q
  store ptr %v, ptr %r
  br label %e
b:
  br label %e
e:
  %s = phi ptr [ %q, %a ], [ %p, %b ]
  %w = load ptr, ptr %s
  ret ptr %w
}

define i8 @blocks_in_another_order_i8(ptr %p, ptr %q, ptr %r, i1 %c) {
  br i1 %c, label %a, label %b
a:
  %v = load i8, ptr %p
  store i8 %v, ptr %r
  br label %e
b:
  %u = load i8, ptr %q
  store i8 %u, ptr %p
  br label %e
e:
  %s = phi ptr [ %q, %a ], [ %r, %b ]
  %w = load i8, ptr %s
  ret i8 %w
}

define i32 @blocks_in_another_order_i32(ptr %p, ptr %q, ptr %r, i1 %c) {
  br i1 %c, label %a, label %b
a:
  %v = load i32, ptr %p
  store i32 %v, ptr %r
  br label %e
b:
  %u = load i32, ptr %q
  store i32 %u, ptr %p
  br label %e
e:
  %s = phi ptr [ %q, %a ], [ %r, %b ]
  %w = load i32, ptr %s
  ret i32 %w
}

define ptr @blocks_in_another_order_ptr(ptr %p, ptr %q, ptr %r, i1 %c) {
  br i1 %c, label %a, label %b
a:
  %v = load ptr, ptr %p
  store ptr %v, ptr %r
  br label %e
b:
  %u = load ptr, ptr %q
  store ptr %u, ptr %p
  br label %e
e:
  %s = phi ptr [ %q, %a ], [ %r, %b ]
  %w = load ptr, ptr %s
  ret ptr %w
}

define i8 @least_of_two_pointers_i8(ptr %p, ptr %q, ptr %r, i1 %c) {
  br i1 %c, label %a, label %e
a:
  %v = load i8, ptr %p
  %u = load i8, ptr %q
  store i8 99, ptr %r
  %t = icmp ult i8 %v, %u
  %m = select i1 %t, ptr %p, ptr %q
  br label %e
e:
  %s = phi ptr [ %m, %a ], [ %p, %0 ]
  %w = load i8, ptr %s
  ret i8 %w
}

define i32 @least_of_two_pointers_i32(ptr %p, ptr %q, ptr %r, i1 %c) {
  br i1 %c, label %a, label %e
a:
  %v = load i32, ptr %p
  %u = load i32, ptr %q
  store i32 99, ptr %r
  %t = icmp ult i32 %v, %u
  %m = select i1 %t, ptr %p, ptr %q
  br label %e
e:
  %s = phi ptr [ %m, %a ], [ %p, %0 ]
  %w = load i32, ptr %s
  ret i32 %w
}

define i64 @least_of_two_pointers_i64(ptr %p, ptr %q, ptr %r, i1 %c) {
  br i1 %c, label %a, label %e
a:
  %v = load i64, ptr %p
  %u = load i64, ptr %q
  store i64 99, ptr %r
  %t = icmp ult i64 %v, %u
  %m = select i1 %t, ptr %p, ptr %q
  br label %e
e:
  %s = phi ptr [ %m, %a ], [ %p, %0 ]
  %w = load i64, ptr %s
  ret i64 %w
}

define void @stores_merged_i8(ptr %p, ptr %q, i16 %x) {
  %a = trunc i16 %x to i8
  %s = lshr i16 %x, 8
  %b = trunc i16 %s to i8
  %g = getelementptr i8, ptr %p, i64 1
  store i8 %a, ptr %p, align 2
  store i8 %b, ptr %g, align 1
  store i8 7, ptr %q
  ret void
}

define i16 @store_split_i8(ptr %p, ptr %q, i16 %x) {
  store i16 %x, ptr %p
  %r = load i16, ptr %q
  ret i16 %r
}

define void @stores_merged_i16(ptr %p, ptr %q, i32 %x) {
  %a = trunc i32 %x to i16
  %s = lshr i32 %x, 16
  %b = trunc i32 %s to i16
  %g = getelementptr i8, ptr %p, i64 2
  store i16 %a, ptr %p, align 4
  store i16 %b, ptr %g, align 2
  store i16 7, ptr %q
  ret void
}

define i32 @store_split_i16(ptr %p, ptr %q, i32 %x) {
  store i32 %x, ptr %p
  %r = load i32, ptr %q
  ret i32 %r
}

define void @stores_merged_i32(ptr %p, ptr %q, i64 %x) {
  %a = trunc i64 %x to i32
  %s = lshr i64 %x, 32
  %b = trunc i64 %s to i32
  %g = getelementptr i8, ptr %p, i64 4
  store i32 %a, ptr %p, align 8
  store i32 %b, ptr %g, align 4
  store i32 7, ptr %q
  ret void
}

define i64 @store_split_i32(ptr %p, ptr %q, i64 %x) {
  store i64 %x, ptr %p
  %r = load i64, ptr %q
  ret i64 %r
}

define void @four_stores_merged(ptr %p, ptr %q) {
  %g1 = getelementptr i8, ptr %p, i64 1
  store i8 2, ptr %g1
  %g3 = getelementptr i8, ptr %p, i64 3
  store i8 4, ptr %g3
  %g0 = getelementptr i8, ptr %p, i64 0
  store i8 1, ptr %g0
  %g2 = getelementptr i8, ptr %p, i64 2
  store i8 3, ptr %g2
  store i8 9, ptr %q
  ret void
}

define void @store_out_of_branch_i8(i1 %c, ptr %p, ptr %q, i8 %x) {
  %w = load i8, ptr %q
  br i1 %c, label %a, label %b
a:
  store i8 %x, ptr %p
  br label %e
b:
  store i8 %w, ptr %p
  br label %e
e:
  ret void
}

define void @store_out_of_branch_i32(i1 %c, ptr %p, ptr %q, i32 %x) {
  %w = load i32, ptr %q
  br i1 %c, label %a, label %b
a:
  store i32 %x, ptr %p
  br label %e
b:
  store i32 %w, ptr %p
  br label %e
e:
  ret void
}

define void @store_out_of_branch_i64(i1 %c, ptr %p, ptr %q, i64 %x) {
  %w = load i64, ptr %q
  br i1 %c, label %a, label %b
a:
  store i64 %x, ptr %p
  br label %e
b:
  store i64 %w, ptr %p
  br label %e
e:
  ret void
}

define void @store_by_select_i8(i1 noundef %c, ptr %p, ptr %q) {
  store i8 99, ptr %p
  %w = load i8, ptr %q
  br i1 %c, label %a, label %e
a:
  store i8 %w, ptr %p
  br label %e
e:
  ret void
}

define void @store_by_select_i32(i1 noundef %c, ptr %p, ptr %q) {
  store i32 99, ptr %p
  %w = load i32, ptr %q
  br i1 %c, label %a, label %e
a:
  store i32 %w, ptr %p
  br label %e
e:
  ret void
}

define void @wrong_store_out_of_branch_i32(i1 noundef %c, ptr %p, ptr %q) {
  %w = load i32, ptr %q
  br i1 %c, label %a, label %e
a:
  store i32 %w, ptr %p
  br label %e
e:
  ret void
}

define i8 @load_hoisted_i8(i1 %c, ptr %p, ptr %q) {
  br i1 %c, label %a, label %b
a:
  %v = load i8, ptr %p
  store i8 99, ptr %q
  ret i8 %v
b:
  %w = load i8, ptr %p
  %s = add i8 %w, 1
  store i8 %s, ptr %q
  ret i8 %s
}

define i32 @load_hoisted_i32(i1 %c, ptr %p, ptr %q) {
  br i1 %c, label %a, label %b
a:
  %v = load i32, ptr %p
  store i32 99, ptr %q
  ret i32 %v
b:
  %w = load i32, ptr %p
  %s = add i32 %w, 1
  store i32 %s, ptr %q
  ret i32 %s
}

define i64 @load_hoisted_i64(i1 %c, ptr %p, ptr %q) {
  br i1 %c, label %a, label %b
a:
  %v = load i64, ptr %p
  store i64 99, ptr %q
  ret i64 %v
b:
  %w = load i64, ptr %p
  %s = add i64 %w, 1
  store i64 %s, ptr %q
  ret i64 %s
}

define i8 @store_to_selected_i8(i1 noundef %c, ptr %p, ptr %q, ptr %r) {
  %v = load i8, ptr %p
  store i8 99, ptr %p
  br i1 %c, label %a, label %b
a:
  store i8 %v, ptr %q
  br label %e
b:
  store i8 %v, ptr %r
  br label %e
e:
  ret i8 %v
}

define i32 @store_to_selected_i32(i1 noundef %c, ptr %p, ptr %q, ptr %r) {
  %v = load i32, ptr %p
  store i32 99, ptr %p
  br i1 %c, label %a, label %b
a:
  store i32 %v, ptr %q
  br label %e
b:
  store i32 %v, ptr %r
  br label %e
e:
  ret i32 %v
}

define i8 @wrong_load_over_store_i8(ptr %p, ptr %q) {
  %v = load i8, ptr %p
  store i8 99, ptr %q
  ret i8 %v
}

define i32 @wrong_load_over_store_i32(ptr %p, ptr %q) {
  %v = load i32, ptr %p
  store i32 99, ptr %q
  ret i32 %v
}

define i8 @if_converted_i8(ptr %p, ptr %q, i8 %x) {
  %v = load i8, ptr %p
  %w = load i8, ptr %q
  %t = icmp ult i8 %v, %x
  br i1 %t, label %a, label %e
a:
  %s = add i8 %w, %x
  br label %e
e:
  %r = phi i8 [ %s, %a ], [ %v, %0 ]
  store i8 %r, ptr %q
  ret i8 %r
}

define i32 @if_converted_i32(ptr %p, ptr %q, i32 %x) {
  %v = load i32, ptr %p
  %w = load i32, ptr %q
  %t = icmp ult i32 %v, %x
  br i1 %t, label %a, label %e
a:
  %s = add i32 %w, %x
  br label %e
e:
  %r = phi i32 [ %s, %a ], [ %v, %0 ]
  store i32 %r, ptr %q
  ret i32 %r
}

define i64 @if_converted_i64(ptr %p, ptr %q, i64 %x) {
  %v = load i64, ptr %p
  %w = load i64, ptr %q
  %t = icmp ult i64 %v, %x
  br i1 %t, label %a, label %e
a:
  %s = add i64 %w, %x
  br label %e
e:
  %r = phi i64 [ %s, %a ], [ %v, %0 ]
  store i64 %r, ptr %q
  ret i64 %r
}

define i8 @arms_exchanged_i8(ptr %p, ptr %q, i32 %x) {
  %t = icmp ult i32 %x, 5
  br i1 %t, label %a, label %b
a:
  %v = load i8, ptr %p
  store i8 %v, ptr %q
  ret i8 %v
b:
  %w = load i8, ptr %q
  store i8 %w, ptr %p
  ret i8 %w
}

define i32 @arms_exchanged_i32(ptr %p, ptr %q, i32 %x) {
  %t = icmp ult i32 %x, 5
  br i1 %t, label %a, label %b
a:
  %v = load i32, ptr %p
  store i32 %v, ptr %q
  ret i32 %v
b:
  %w = load i32, ptr %q
  store i32 %w, ptr %p
  ret i32 %w
}

define i64 @arms_exchanged_i64(ptr %p, ptr %q, i32 %x) {
  %t = icmp ult i32 %x, 5
  br i1 %t, label %a, label %b
a:
  %v = load i64, ptr %p
  store i64 %v, ptr %q
  ret i64 %v
b:
  %w = load i64, ptr %q
  store i64 %w, ptr %p
  ret i64 %w
}

define ptr @arms_exchanged_ptr(ptr %p, ptr %q, i32 %x) {
  %t = icmp ult i32 %x, 5
  br i1 %t, label %a, label %b
a:
  %v = load ptr, ptr %p
  store ptr %v, ptr %q
  ret ptr %v
b:
  %w = load ptr, ptr %q
  store ptr %w, ptr %p
  ret ptr %w
}

define i32 @wrong_arms_exchanged_i32(ptr %p, ptr %q, i32 %x) {
  %t = icmp ult i32 %x, 5
  br i1 %t, label %a, label %b
a:
  %v = load i32, ptr %p
  store i32 %v, ptr %q
  ret i32 %v
b:
  %w = load i32, ptr %q
  store i32 %w, ptr %p
  ret i32 %w
}

define i8 @switch_to_chain_i8(ptr %p, ptr %q, i8 %x) {
  switch i8 %x, label %d [ i8 1, label %a
  i8 3, label %b
  i8 7, label %a ]
a:
  store i8 99, ptr %p
  br label %e
b:
  store i8 23, ptr %q
  br label %e
d:
  store i8 99, ptr %q
  br label %e
e:
  %r = load i8, ptr %p
  ret i8 %r
}

define i32 @switch_to_chain_i32(ptr %p, ptr %q, i8 %x) {
  switch i8 %x, label %d [ i8 1, label %a
  i8 3, label %b
  i8 7, label %a ]
a:
  store i32 99, ptr %p
  br label %e
b:
  store i32 23, ptr %q
  br label %e
d:
  store i32 99, ptr %q
  br label %e
e:
  %r = load i32, ptr %p
  ret i32 %r
}

define i8 @chain_to_switch_i8(ptr %p, ptr %q, i8 %x) {
  %t1 = icmp eq i8 %x, 1
  br i1 %t1, label %a, label %c1
c1:
  %t2 = icmp eq i8 %x, 3
  br i1 %t2, label %b, label %c2
c2:
  %t3 = icmp eq i8 %x, 7
  br i1 %t3, label %a, label %d
a:
  store i8 99, ptr %p
  br label %e
b:
  store i8 23, ptr %q
  br label %e
d:
  store i8 99, ptr %q
  br label %e
e:
  %r = load i8, ptr %p
  ret i8 %r
}

define i64 @chain_to_switch_i64(ptr %p, ptr %q, i8 %x) {
  %t1 = icmp eq i8 %x, 1
  br i1 %t1, label %a, label %c1
c1:
  %t2 = icmp eq i8 %x, 3
  br i1 %t2, label %b, label %c2
c2:
  %t3 = icmp eq i8 %x, 7
  br i1 %t3, label %a, label %d
a:
  store i64 99, ptr %p
  br label %e
b:
  store i64 23, ptr %q
  br label %e
d:
  store i64 99, ptr %q
  br label %e
e:
  %r = load i64, ptr %p
  ret i64 %r
}

define i8 @returns_merged_i8(ptr %p, ptr %q, i8 %x) {
  %t = icmp ult i8 %x, 4
  br i1 %t, label %a, label %b
a:
  %v = load i8, ptr %p
  store i8 %v, ptr %q
  ret i8 %v
b:
  %s = icmp ult i8 %x, 9
  br i1 %s, label %c, label %d
c:
  %w = load i8, ptr %q
  ret i8 %w
d:
  ret i8 0
}

define i32 @returns_merged_i32(ptr %p, ptr %q, i8 %x) {
  %t = icmp ult i8 %x, 4
  br i1 %t, label %a, label %b
a:
  %v = load i32, ptr %p
  store i32 %v, ptr %q
  ret i32 %v
b:
  %s = icmp ult i8 %x, 9
  br i1 %s, label %c, label %d
c:
  %w = load i32, ptr %q
  ret i32 %w
d:
  ret i32 0
}

define i64 @returns_merged_i64(ptr %p, ptr %q, i8 %x) {
  %t = icmp ult i8 %x, 4
  br i1 %t, label %a, label %b
a:
  %v = load i64, ptr %p
  store i64 %v, ptr %q
  ret i64 %v
b:
  %s = icmp ult i8 %x, 9
  br i1 %s, label %c, label %d
c:
  %w = load i64, ptr %q
  ret i64 %w
d:
  ret i64 0
}

define ptr @returns_merged_ptr(ptr %p, ptr %q, i8 %x) {
  %t = icmp ult i8 %x, 4
  br i1 %t, label %a, label %b
a:
  %v = load ptr, ptr %p
  store ptr %v, ptr %q
  ret ptr %v
b:
  %s = icmp ult i8 %x, 9
  br i1 %s, label %c, label %d
c:
  %w = load ptr, ptr %q
  ret ptr %w
d:
  ret ptr null
}

define i8 @tail_copied_i8(ptr %p, ptr %q, ptr %r, i1 %c) {
  %v = load i8, ptr %p
  br i1 %c, label %a, label %e
a:
  store i8 %v, ptr %q
  br label %e
e:
  %w = load i8, ptr %r
  store i8 %w, ptr %p
  ret i8 %w
}

define i32 @tail_copied_i32(ptr %p, ptr %q, ptr %r, i1 %c) {
  %v = load i32, ptr %p
  br i1 %c, label %a, label %e
a:
  store i32 %v, ptr %q
  br label %e
e:
  %w = load i32, ptr %r
  store i32 %w, ptr %p
  ret i32 %w
}

define ptr @tail_copied_ptr(ptr %p, ptr %q, ptr %r, i1 %c) {
  %v = load ptr, ptr %p
  br i1 %c, label %a, label %e
a:
  store ptr %v, ptr %q
  br label %e
e:
  %w = load ptr, ptr %r
  store ptr %w, ptr %p
  ret ptr %w
}

define void @tests_joined_i8(ptr %p, ptr %q, i1 %c, i1 %d) {
  br i1 %c, label %a, label %e
a:
  br i1 %d, label %b, label %e
b:
  %v = load i8, ptr %q
  store i8 %v, ptr %p
  br label %e
e:
  ret void
}

define void @tests_joined_i32(ptr %p, ptr %q, i1 %c, i1 %d) {
  br i1 %c, label %a, label %e
a:
  br i1 %d, label %b, label %e
b:
  %v = load i32, ptr %q
  store i32 %v, ptr %p
  br label %e
e:
  ret void
}

define void @stores_exchanged_i8(ptr %p, ptr %q) {
  %v = load i8, ptr %q
  %g = getelementptr i8, ptr %p, i64 1
  store i8 %v, ptr %p
  store i8 99, ptr %g
  ret void
}

define void @stores_exchanged_i16(ptr %p, ptr %q) {
  %v = load i16, ptr %q
  %g = getelementptr i16, ptr %p, i64 1
  store i16 %v, ptr %p
  store i16 99, ptr %g
  ret void
}

define void @stores_exchanged_i32(ptr %p, ptr %q) {
  %v = load i32, ptr %q
  %g = getelementptr i32, ptr %p, i64 1
  store i32 %v, ptr %p
  store i32 99, ptr %g
  ret void
}

define void @wrong_stores_exchanged_i8(ptr %p, ptr %q) {
  store i8 99, ptr %p
  store i8 23, ptr %q
  ret void
}

define void @wrong_stores_exchanged_i32(ptr %p, ptr %q) {
  store i32 99, ptr %p
  store i32 23, ptr %q
  ret void
}
