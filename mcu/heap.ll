; SPDX-License-Identifier: Apache-2.0 OR MIT
; Copyright 2026 The Gihandop authors
;
; The memory of the library on a processor with addresses of 32 bits, over the pool of pool.c. tools/mcu puts this
; behind the module that it has rewritten. It does what c/heap.c does, which no compiler of C can say here: these
; functions return two numbers of 64 bits in registers. The first is 1 if there is a block, and the second is its
; address, or 16 if there is none. Sizes have 64 bits: one that 32 bits do not hold is refused.

declare ptr @gh_pool_take(i32)
declare ptr @gh_pool_resize(ptr, i32)
declare void @gh_pool_give_back(ptr)

define internal i64 @gh_heap_octets(i64 %size, i64 %align) {
  %none = icmp eq i64 %size, 0
  %octets = select i1 %none, i64 %align, i64 %size
  %large = icmp ugt i64 %octets, 2147483647
  %wide = icmp ugt i64 %align, 16
  %no = or i1 %large, %wide
  %cut = select i1 %no, i64 2147483647, i64 %octets
  ret i64 %cut
}

define internal { i64, i64 } @gh_heap_tried(ptr %at) {
  %none = icmp eq ptr %at, null
  %ok = select i1 %none, i64 0, i64 1
  %number = ptrtoint ptr %at to i64
  %place = select i1 %none, i64 16, i64 %number
  %first = insertvalue { i64, i64 } poison, i64 %ok, 0
  %both = insertvalue { i64, i64 } %first, i64 %place, 1
  ret { i64, i64 } %both
}

define internal { i64, i64 } @rattle_alloc(i64 %size, i64 %align) {
  %octets = call i64 @gh_heap_octets(i64 %size, i64 %align)
  %cut = trunc i64 %octets to i32
  %at = call ptr @gh_pool_take(i32 %cut)
  %tried = call { i64, i64 } @gh_heap_tried(ptr %at)
  ret { i64, i64 } %tried
}

define internal { i64, i64 } @rattle_realloc(ptr %old, i64 %kept, i64 %size, i64 %align) {
  %octets = call i64 @gh_heap_octets(i64 %size, i64 %align)
  %cut = trunc i64 %octets to i32
  %at = call ptr @gh_pool_resize(ptr %old, i32 %cut)
  %tried = call { i64, i64 } @gh_heap_tried(ptr %at)
  ret { i64, i64 } %tried
}

define internal void @rattle_dealloc(ptr %at) {
  call void @gh_pool_give_back(ptr %at)
  ret void
}
