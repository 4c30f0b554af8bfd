declare void @print(i32)
declare ptr @malloc(i32)
declare void @free(ptr)
define ptr @f(i32 %n) presplitcoroutine {
entry:
  call void @print(i32 7)
  %a0 = alloca i32, align 4
  %a1 = alloca i32, align 4
  %a2 = alloca i32, align 4
  %a3 = alloca i32, align 4
  %a4 = alloca i32, align 4
  %a5 = alloca i32, align 4
  %a6 = alloca i32, align 4
  %a7 = alloca i32, align 4
  %a8 = alloca i32, align 4
  %a9 = alloca i32, align 4
  %a10 = alloca i32, align 4
  %a11 = alloca i32, align 4
  %a12 = alloca i32, align 4
  %a13 = alloca i32, align 4
  %a14 = alloca i32, align 4
  %a15 = alloca i32, align 4
  %a16 = alloca i32, align 4
  %a17 = alloca i32, align 4
  %a18 = alloca i32, align 4
  %a19 = alloca i32, align 4
  %a20 = alloca i32, align 4
  %a21 = alloca i32, align 4
  %a22 = alloca i32, align 4
  %a23 = alloca i32, align 4
  %a24 = alloca i32, align 4
  %a25 = alloca i32, align 4
  %a26 = alloca i32, align 4
  %a27 = alloca i32, align 4
  %a28 = alloca i32, align 4
  %a29 = alloca i32, align 4
  %a30 = alloca i32, align 4
  %a31 = alloca i32, align 4
  %a32 = alloca i32, align 4
  %a33 = alloca i32, align 4
  %a34 = alloca i32, align 4
  %a35 = alloca i32, align 4
  %a36 = alloca i32, align 4
  %a37 = alloca i32, align 4
  %a38 = alloca i32, align 4
  %a39 = alloca i32, align 4
  %id = call token @llvm.coro.id(i32 0, ptr null, ptr null, ptr null)
  %size = call i32 @llvm.coro.size.i32()
  %m = call ptr @malloc(i32 %size)
  %h = call ptr @llvm.coro.begin(token %id, ptr %m)
  store i32 0, ptr %a0, align 4
  store i32 0, ptr %a1, align 4
  store i32 0, ptr %a2, align 4
  store i32 0, ptr %a3, align 4
  store i32 0, ptr %a4, align 4
  store i32 0, ptr %a5, align 4
  store i32 0, ptr %a6, align 4
  store i32 0, ptr %a7, align 4
  store i32 0, ptr %a8, align 4
  store i32 0, ptr %a9, align 4
  store i32 0, ptr %a10, align 4
  store i32 0, ptr %a11, align 4
  store i32 0, ptr %a12, align 4
  store i32 0, ptr %a13, align 4
  store i32 0, ptr %a14, align 4
  store i32 0, ptr %a15, align 4
  store i32 0, ptr %a16, align 4
  store i32 0, ptr %a17, align 4
  store i32 0, ptr %a18, align 4
  store i32 0, ptr %a19, align 4
  store i32 0, ptr %a20, align 4
  store i32 0, ptr %a21, align 4
  store i32 0, ptr %a22, align 4
  store i32 0, ptr %a23, align 4
  store i32 0, ptr %a24, align 4
  store i32 0, ptr %a25, align 4
  store i32 0, ptr %a26, align 4
  store i32 0, ptr %a27, align 4
  store i32 0, ptr %a28, align 4
  store i32 0, ptr %a29, align 4
  store i32 0, ptr %a30, align 4
  store i32 0, ptr %a31, align 4
  store i32 0, ptr %a32, align 4
  store i32 0, ptr %a33, align 4
  store i32 0, ptr %a34, align 4
  store i32 0, ptr %a35, align 4
  store i32 0, ptr %a36, align 4
  store i32 0, ptr %a37, align 4
  store i32 0, ptr %a38, align 4
  store i32 0, ptr %a39, align 4
  %s = call i8 @llvm.coro.suspend(token none, i1 false)
  switch i8 %s, label %end [ i8 0, label %again i8 1, label %clean ]
again:
  br label %clean
clean:
  %fm = call ptr @llvm.coro.free(token %id, ptr %h)
  call void @free(ptr %fm)
  br label %end
end:
  %e = call i1 @llvm.coro.end(ptr %h, i1 false, token none)
  ret ptr %h
}
define i32 @main() {
entry:
  %h = call ptr @f(i32 4)
  call void @llvm.coro.resume(ptr %h)
  ret i32 0
}
