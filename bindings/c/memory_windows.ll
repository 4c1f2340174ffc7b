; The three calls by which the crate has memory of the C library, for Windows: what is handed out is whether there is a
; block, and its address, in two registers, which no C compiler does there. A block of no bytes is one of `align` bytes.
target triple = "x86_64-w64-windows-gnu"

@nothing = internal global i8 0

declare ptr @malloc(i64)
declare ptr @realloc(ptr, i64)
declare void @free(ptr)

define internal { i64, i64 } @handed(ptr %block) {
  %is_none = icmp eq ptr %block, null
  %there = select i1 %is_none, i64 0, i64 1
  %found = select i1 %is_none, ptr @nothing, ptr %block
  %address = ptrtoint ptr %found to i64
  %first = insertvalue { i64, i64 } poison, i64 %there, 0
  %both = insertvalue { i64, i64 } %first, i64 %address, 1
  ret { i64, i64 } %both
}

define internal i64 @asked(i64 %size, i64 %align) {
  %is_none = icmp eq i64 %size, 0
  %asked = select i1 %is_none, i64 %align, i64 %size
  ret i64 %asked
}

define { i64, i64 } @rattle_alloc(i64 %size, i64 %align) {
  %asked = call i64 @asked(i64 %size, i64 %align)
  %block = call ptr @malloc(i64 %asked)
  %handed = call { i64, i64 } @handed(ptr %block)
  ret { i64, i64 } %handed
}

define { i64, i64 } @rattle_realloc(ptr %old, i64 %old_size, i64 %size, i64 %align) {
  %asked = call i64 @asked(i64 %size, i64 %align)
  %block = call ptr @realloc(ptr %old, i64 %asked)
  %handed = call { i64, i64 } @handed(ptr %block)
  ret { i64, i64 } %handed
}

define void @rattle_dealloc(ptr %block) {
  call void @free(ptr %block)
  ret void
}
