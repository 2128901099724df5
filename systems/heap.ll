; The heap calls of the library over malloc, realloc and free: each answers a pair of words, whether there is memory
; and where it is. As text, because a pair of words comes back from the library's calls in registers on every system.
@none = internal constant [16 x i8] zeroinitializer, align 16

declare ptr @malloc(i64)
declare ptr @realloc(ptr, i64)
declare void @free(ptr)

define internal { i64, i64 } @pair(ptr %at) {
  %is_none = icmp eq ptr %at, null
  %given = select i1 %is_none, ptr @none, ptr %at
  %address = ptrtoint ptr %given to i64
  %is_some = xor i1 %is_none, true
  %ok = zext i1 %is_some to i64
  %first = insertvalue { i64, i64 } undef, i64 %ok, 0
  %both = insertvalue { i64, i64 } %first, i64 %address, 1
  ret { i64, i64 } %both
}

define { i64, i64 } @rattle_alloc(i64 %size, i64 %alignment) {
  %is_empty = icmp eq i64 %size, 0
  %wanted = select i1 %is_empty, i64 %alignment, i64 %size
  %at = call ptr @malloc(i64 %wanted)
  %answer = call { i64, i64 } @pair(ptr %at)
  ret { i64, i64 } %answer
}

define { i64, i64 } @rattle_realloc(ptr %old, i64 %kept, i64 %size, i64 %alignment) {
  %is_empty = icmp eq i64 %size, 0
  %wanted = select i1 %is_empty, i64 %alignment, i64 %size
  %at = call ptr @realloc(ptr %old, i64 %wanted)
  %answer = call { i64, i64 } @pair(ptr %at)
  ret { i64, i64 } %answer
}

define void @rattle_dealloc(ptr %at) {
  call void @free(ptr %at)
  ret void
}
