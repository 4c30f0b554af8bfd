declare void @print(i32)
declare ptr @malloc(i32)
declare void @free(ptr)
define ptr @f(i32 %n) presplitcoroutine {
entry:
  %s0 = alloca [2 x i32], align 4
  %s1 = alloca [2 x i32], align 4
  %s2 = alloca [2 x i32], align 4
  %s3 = alloca [2 x i32], align 4
  %s4 = alloca [2 x i32], align 4
  %s5 = alloca [2 x i32], align 4
  %s6 = alloca [2 x i32], align 4
  %s7 = alloca [2 x i32], align 4
  %s8 = alloca [2 x i32], align 4
  %s9 = alloca [2 x i32], align 4
  %s10 = alloca [2 x i32], align 4
  %s11 = alloca [2 x i32], align 4
  %s12 = alloca [2 x i32], align 4
  %s13 = alloca [2 x i32], align 4
  %s14 = alloca [2 x i32], align 4
  %s15 = alloca [2 x i32], align 4
  %s16 = alloca [2 x i32], align 4
  %s17 = alloca [2 x i32], align 4
  %s18 = alloca [2 x i32], align 4
  %s19 = alloca [2 x i32], align 4
  %id = call token @llvm.coro.id(i32 0, ptr null, ptr null, ptr null)
  %size = call i32 @llvm.coro.size.i32()
  %m = call ptr @malloc(i32 %size)
  %h = call ptr @llvm.coro.begin(token %id, ptr %m)
  %g0 = getelementptr [2 x i32], ptr %s0, i64 0, i64 1
  %g1 = getelementptr [2 x i32], ptr %s1, i64 0, i64 1
  %g2 = getelementptr [2 x i32], ptr %s2, i64 0, i64 1
  %g3 = getelementptr [2 x i32], ptr %s3, i64 0, i64 1
  %g4 = getelementptr [2 x i32], ptr %s4, i64 0, i64 1
  %g5 = getelementptr [2 x i32], ptr %s5, i64 0, i64 1
  %g6 = getelementptr [2 x i32], ptr %s6, i64 0, i64 1
  %g7 = getelementptr [2 x i32], ptr %s7, i64 0, i64 1
  %g8 = getelementptr [2 x i32], ptr %s8, i64 0, i64 1
  %g9 = getelementptr [2 x i32], ptr %s9, i64 0, i64 1
  %g10 = getelementptr [2 x i32], ptr %s10, i64 0, i64 1
  %g11 = getelementptr [2 x i32], ptr %s11, i64 0, i64 1
  %g12 = getelementptr [2 x i32], ptr %s12, i64 0, i64 1
  %g13 = getelementptr [2 x i32], ptr %s13, i64 0, i64 1
  %g14 = getelementptr [2 x i32], ptr %s14, i64 0, i64 1
  %g15 = getelementptr [2 x i32], ptr %s15, i64 0, i64 1
  %g16 = getelementptr [2 x i32], ptr %s16, i64 0, i64 1
  %g17 = getelementptr [2 x i32], ptr %s17, i64 0, i64 1
  %g18 = getelementptr [2 x i32], ptr %s18, i64 0, i64 1
  %g19 = getelementptr [2 x i32], ptr %s19, i64 0, i64 1
  %s = call i8 @llvm.coro.suspend(token none, i1 false)
  switch i8 %s, label %end [ i8 0, label %again i8 1, label %clean ]
again:
  call void @print(i32 2)
  call void @llvm.lifetime.start.p0(i64 8, ptr %s0)
  store i32 1, ptr %g0, align 4
  call void @llvm.lifetime.start.p0(i64 8, ptr %s1)
  store i32 2, ptr %g1, align 4
  call void @llvm.lifetime.start.p0(i64 8, ptr %s2)
  store i32 3, ptr %g2, align 4
  call void @llvm.lifetime.start.p0(i64 8, ptr %s3)
  store i32 4, ptr %g3, align 4
  call void @llvm.lifetime.start.p0(i64 8, ptr %s4)
  store i32 5, ptr %g4, align 4
  call void @llvm.lifetime.start.p0(i64 8, ptr %s5)
  store i32 6, ptr %g5, align 4
  call void @llvm.lifetime.start.p0(i64 8, ptr %s6)
  store i32 7, ptr %g6, align 4
  call void @llvm.lifetime.start.p0(i64 8, ptr %s7)
  store i32 8, ptr %g7, align 4
  call void @llvm.lifetime.start.p0(i64 8, ptr %s8)
  store i32 9, ptr %g8, align 4
  call void @llvm.lifetime.start.p0(i64 8, ptr %s9)
  store i32 10, ptr %g9, align 4
  call void @llvm.lifetime.start.p0(i64 8, ptr %s10)
  store i32 11, ptr %g10, align 4
  call void @llvm.lifetime.start.p0(i64 8, ptr %s11)
  store i32 12, ptr %g11, align 4
  call void @llvm.lifetime.start.p0(i64 8, ptr %s12)
  store i32 13, ptr %g12, align 4
  call void @llvm.lifetime.start.p0(i64 8, ptr %s13)
  store i32 14, ptr %g13, align 4
  call void @llvm.lifetime.start.p0(i64 8, ptr %s14)
  store i32 15, ptr %g14, align 4
  call void @llvm.lifetime.start.p0(i64 8, ptr %s15)
  store i32 16, ptr %g15, align 4
  call void @llvm.lifetime.start.p0(i64 8, ptr %s16)
  store i32 17, ptr %g16, align 4
  call void @llvm.lifetime.start.p0(i64 8, ptr %s17)
  store i32 18, ptr %g17, align 4
  call void @llvm.lifetime.start.p0(i64 8, ptr %s18)
  store i32 19, ptr %g18, align 4
  call void @llvm.lifetime.start.p0(i64 8, ptr %s19)
  store i32 20, ptr %g19, align 4
  %y = load i32, ptr %g19, align 4
  call void @print(i32 %y)
  br label %clean
clean:
  %fm = call ptr @llvm.coro.free(token %id, ptr %h)
  call void @free(ptr %fm)
  br label %end
end:
  %e = call i1 @llvm.coro.end(ptr %h, i1 false, token none)
  ret ptr %h
}
define i32 @main() {
entry:
  %h = call ptr @f(i32 4)
  call void @llvm.coro.resume(ptr %h)
  ret i32 0
}
