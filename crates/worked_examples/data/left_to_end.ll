declare void @print(i32)
declare ptr @malloc(i32)
declare void @free(ptr)
declare i32 @pick()
define ptr @f() presplitcoroutine {
entry:
  %id = call token @llvm.coro.id(i32 0, ptr null, ptr null, ptr null)
  %size = call i32 @llvm.coro.size.i32()
  %m = call ptr @malloc(i32 %size)
  %h = call ptr @llvm.coro.begin(token %id, ptr %m)
  %k = call token @llvm.coro.save(ptr null)
  %c = call i32 @pick()
  %z = icmp eq i32 %c, 0
  br i1 %z, label %sus, label %end
sus:
  %s = call i8 @llvm.coro.suspend(token %k, i1 false)
  switch i8 %s, label %end [ i8 0, label %go i8 1, label %clean ]
go:
  call void @print(i32 1)
  br label %clean
clean:
  %fm = call ptr @llvm.coro.free(token %id, ptr %h)
  call void @free(ptr %fm)
  br label %end
end:
  %x = call i1 @llvm.coro.end(ptr %h, i1 false, token none)
  ret ptr %h
}
define i32 @main() {
entry:
  %h = call ptr @f()
  call void @print(i32 2)
  ret i32 0
}
