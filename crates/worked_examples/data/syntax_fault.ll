; The third item isn't one.
declare void @print(i32)

define void @main() {
  ret void
}

define void @
