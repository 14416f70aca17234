; The two functions of the proved code for memory. They return a pair: 1 and a place, or 0 and a pointer that is not null,
; at which nothing is read or written. C has no portable way to return a pair as the compiler's own form does, so they
; are written in that form. A size of 0 gets memory too: one unit of the alignment, which divides 16.

@nowhere = internal global [16 x i8] zeroinitializer, align 16

declare ptr @rattle_find(i64)
declare ptr @rattle_resize(ptr, i64, i64)

define { i64, i64 } @rattle_alloc(i64 %size, i64 %alignment) {
  %is_empty = icmp eq i64 %size, 0
  %wanted = select i1 %is_empty, i64 %alignment, i64 %size
  %place = call ptr @rattle_find(i64 %wanted)
  %pair = call { i64, i64 } @pair(ptr %place)
  ret { i64, i64 } %pair
}

define { i64, i64 } @rattle_realloc(ptr %old, i64 %kept, i64 %size, i64 %alignment) {
  %is_empty = icmp eq i64 %size, 0
  %wanted = select i1 %is_empty, i64 %alignment, i64 %size
  %place = call ptr @rattle_resize(ptr %old, i64 %kept, i64 %wanted)
  %pair = call { i64, i64 } @pair(ptr %place)
  ret { i64, i64 } %pair
}

define internal { i64, i64 } @pair(ptr %place) alwaysinline {
  %is_found = icmp ne ptr %place, null
  %found = zext i1 %is_found to i64
  %told = select i1 %is_found, ptr %place, ptr @nowhere
  %number = ptrtoint ptr %told to i64
  %first = insertvalue { i64, i64 } poison, i64 %found, 0
  %pair = insertvalue { i64, i64 } %first, i64 %number, 1
  ret { i64, i64 } %pair
}
