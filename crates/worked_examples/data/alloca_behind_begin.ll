declare void @print(i32)
declare ptr @malloc(i32)
define ptr @f() presplitcoroutine {
entry:
  %id = call token @llvm.coro.id(i32 0, ptr null, ptr null, ptr null)
  %size = call i32 @llvm.coro.size.i32()
  %m = call ptr @malloc(i32 %size)
  %h = call ptr @llvm.coro.begin(token %id, ptr %m)
  %a = alloca i32, align 4
  store i32 3, ptr %a, align 4
  %v = load i32, ptr %a, align 4
  call void @print(i32 %v)
  br label %end
end:
  %e = call i1 @llvm.coro.end(ptr %h, i1 false, token none)
  ret ptr %h
}
define i32 @main() {
entry:
  %h = call ptr @f()
  ret i32 0
}
