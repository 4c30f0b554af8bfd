define void @main() {
entry:
  ret void
}
