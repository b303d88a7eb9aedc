; xw_status_name of include/xw.h. No function of Rattle returns an address to C, so the proved one writes it, and this returns it.
source_filename = "status_name"
target triple = "x86_64-unknown-linux-gnu"

declare void @xw_own_name(ptr, i32)

define ptr @xw_status_name(i32 %status) nounwind {
  %written = alloca ptr
  call void @xw_own_name(ptr %written, i32 %status)
  %name = load ptr, ptr %written
  ret ptr %name
}
