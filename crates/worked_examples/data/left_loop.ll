declare void @print(i32)
declare ptr @malloc(i32)
declare void @free(ptr)
declare i32 @pick()
define ptr @f() presplitcoroutine {
entry:
  %id = call token @llvm.coro.id(i32 0, ptr null, ptr null, ptr null)
  %size = call i32 @llvm.coro.size.i32()
  %m = call ptr @malloc(i32 %size)
  %h = call ptr @llvm.coro.begin(token %id, ptr %m)
  br label %round
round:
  %k = call token @llvm.coro.save(ptr null)
  br label %ask
ask:
  %i = phi i32 [ 0, %round ], [ %j, %again ]
  %c = call i32 @pick()
  switch i32 %c, label %again [ i32 0, label %sus i32 1, label %out i32 2, label %out ]
again:
  %j = add i32 %i, 1
  %e = icmp eq i32 %j, 3
  br i1 %e, label %out, label %ask
sus:
  %s = call i8 @llvm.coro.suspend(token %k, i1 false)
  switch i8 %s, label %end [ i8 0, label %go i8 1, label %clean ]
go:
  call void @print(i32 1)
  br label %round
out:
  call void @print(i32 2)
  br label %clean
clean:
  %fm = call ptr @llvm.coro.free(token %id, ptr %h)
  call void @free(ptr %fm)
  br label %end
end:
  %x = call i1 @llvm.coro.end(ptr %h, i1 false, token none)
  ret ptr %h
}
define i32 @main() {
entry:
  %h = call ptr @f()
  %d = call i32 @pick()
  %z = icmp eq i32 %d, 0
  br i1 %z, label %stop, label %on
on:
  call void @llvm.coro.resume(ptr %h)
  br label %stop
stop:
  ret i32 0
}
