; The three functions by which proved code asks for memory, over heap.c, as c/irig_heap.c has them
; over malloc. They are text of LLVM since C for WebAssembly returns no two words by value.
; The layout is that of the toolchain's own modules for WebAssembly; `module` takes it from here.
target datalayout = "e-m:e-p:64:64-p10:8:8-p20:8:8-i64:64-i128:128-n32:64-S128-ni:1:10:20"
target triple = "wasm64-unknown-unknown"

@none = internal global [16 x i8] zeroinitializer, align 16

declare ptr @heap_give(i64)
declare ptr @heap_resize(ptr, i64)
declare void @heap_take(ptr)

; Whether there is memory, and where; where there is none, some other place than null.
define internal { i64, i64 } @answer(ptr %block) {
  %ok = icmp ne ptr %block, null
  %some = select i1 %ok, ptr %block, ptr @none
  %place = ptrtoint ptr %some to i64
  %word = zext i1 %ok to i64
  %first = insertvalue { i64, i64 } undef, i64 %word, 0
  %both = insertvalue { i64, i64 } %first, i64 %place, 1
  ret { i64, i64 } %both
}

; The alignment is 16 at most, which the heap gives. For a size of 0 it asks for as many bytes.
define hidden { i64, i64 } @rattle_alloc(i64 %size, i64 %align) {
  %is_none = icmp eq i64 %size, 0
  %wanted = select i1 %is_none, i64 %align, i64 %size
  %block = call ptr @heap_give(i64 %wanted)
  %told = call { i64, i64 } @answer(ptr %block)
  ret { i64, i64 } %told
}

define hidden { i64, i64 } @rattle_realloc(ptr %old, i64 %kept, i64 %size, i64 %align) {
  %is_none = icmp eq i64 %size, 0
  %wanted = select i1 %is_none, i64 %align, i64 %size
  %block = call ptr @heap_resize(ptr %old, i64 %wanted)
  %told = call { i64, i64 } @answer(ptr %block)
  ret { i64, i64 } %told
}

define hidden void @rattle_dealloc(ptr %block) {
  call void @heap_take(ptr %block)
  ret void
}
