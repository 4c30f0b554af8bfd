%T = type { i32, ptr }
%U = type {}
@x = global i32 7, align 4
@c = constant ptr @x, align 8
declare void @print(i32)
define i32 @f(i32 %n, ptr %q) {
entry:
  %a = alloca [3 x i64], align 8
  %t = alloca %T, align 8
  br label %x
x:
  %v = phi i32 [ %n, %entry ], [ %w, %y ]
  %w = add nuw nsw i32 %v, -1
  store i32 %w, ptr %a, align 8
  %p = getelementptr inbounds i8, ptr %a, i64 4
  %b = icmp slt i32 1, 2
  %c = select i1 %b, i8 7, i8 poison
  %d = zext nneg i8 %c to i16
  %o = or disjoint i16 %d, 1
  %l = lshr exact i16 %o, 1
  %e = load i32, ptr @x, align 4
  %z = xor i1 true, false
  br i1 %z, label %y, label %"1"
y:
  call void @print(i32 %e)
  switch i32 %w, label %x [ i32 0, label %"1" i32 1, label %end ]
"1":
  %r = call i32 @f(i32 %e, ptr null)
  ret i32 %r
end:
  unreachable
}
define void @"a b"() {
entry:
  ret void
}
