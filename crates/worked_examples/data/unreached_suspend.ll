declare i32 @pick()
declare void @print(i32)
declare ptr @malloc(i32)
define ptr @f() presplitcoroutine {
entry:
  %id = call token @llvm.coro.id(i32 0, ptr null, ptr null, ptr null)
  %size = call i32 @llvm.coro.size.i32()
  %m = call ptr @malloc(i32 %size)
  %h = call ptr @llvm.coro.begin(token %id, ptr %m)
  %w = call i32 @pick()
  br label %t
t:
  call void @print(i32 %w)
  br label %end
dead:
  %s = call i8 @llvm.coro.suspend(token none, i1 false)
  switch i8 %s, label %end [ i8 0, label %t i8 1, label %t ]
end:
  %e = call i1 @llvm.coro.end(ptr %h, i1 false, token none)
  ret ptr %h
}
define i32 @main() {
entry:
  %h = call ptr @f()
  ret i32 0
}
