declare void @print(i32)
declare ptr @malloc(i32)
declare void @free(ptr)
define ptr @f(i32 %n) presplitcoroutine {
entry:
  %a = alloca i32, align 4
  %id = call token @llvm.coro.id(i32 0, ptr null, ptr null, ptr null)
  call void @llvm.lifetime.start.p0(i64 4, ptr %a)
  store i32 5, ptr %a, align 4
  %x = load i32, ptr %a, align 4
  call void @print(i32 %x)
  call void @llvm.lifetime.end.p0(i64 4, ptr %a)
  %size = call i32 @llvm.coro.size.i32()
  %m = call ptr @malloc(i32 %size)
  %h = call ptr @llvm.coro.begin(token %id, ptr %m)
  call void @llvm.lifetime.start.p0(i64 4, ptr %a)
  store i32 %n, ptr %a, align 4
  %s = call i8 @llvm.coro.suspend(token none, i1 false)
  switch i8 %s, label %end [ i8 0, label %again i8 1, label %clean ]
again:
  %y = load i32, ptr %a, align 4
  call void @print(i32 %y)
  br label %clean
clean:
  %fm = call ptr @llvm.coro.free(token %id, ptr %h)
  call void @free(ptr %fm)
  br label %end
end:
  %e = call i1 @llvm.coro.end(ptr %h, i1 false, token none)
  ret ptr %h
}
define i32 @main() {
entry:
  %h = call ptr @f(i32 4)
  call void @llvm.coro.resume(ptr %h)
  ret i32 0
}
