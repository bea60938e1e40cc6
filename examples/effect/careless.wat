;; An effect that makes the class's three mistakes. What it believes afterwards stands in its exported globals.
(module
  (import "filament" "filament_write" (func $write (param i64) (result i64)))
  (import "filament" "filament_read" (func $read (param i64) (result i64)))
  (import "filament" "filament_tl_open" (func $open (param i64) (result i64)))
  (import "filament" "filament_tl_next" (func $next (param i64) (result i64)))
  (import "filament" "filament_tl_close" (func $close (param i64) (result i64)))
  (memory (export "memory") 1)
  (global $saved (export "saved") (mut i64) (i64.const 0))
  (global $inside (export "inside") (mut i64) (i64.const 0))
  (global $heard (export "heard") (mut i64) (i64.const 0))

  (data (i32.const 512) "loop/take")
  (data (i32.const 576) "solo")

  (func $take (param $data i64) (param $len i64) (result i64)
    (i64.store (i32.const 64) (i64.const 512))
    (i64.store (i32.const 72) (i64.const 9))
    (i64.store (i32.const 80) (local.get $data))
    (i64.store (i32.const 88) (local.get $len))
    (i32.store (i32.const 96) (i32.const 1))
    (call $write (i64.const 64)))

  ;; MISTAKE 1: an answer of 0 is counted as saved. The record is only staged.
  (func $save (param $n i32)
    (loop $more
      (if (i64.eqz (call $take (i64.const 576) (i64.const 4)))
        (then (global.set $saved (i64.add (global.get $saved) (i64.const 1)))))
      (local.set $n (i32.sub (local.get $n) (i32.const 1)))
      (br_if $more (local.get $n))))

  ;; MISTAKE 2: ptr + len is compared with the size of the memory, and the sum wraps.
  (func $wrap (param $ptr i64) (param $len i64)
    (if (i64.le_u (i64.add (local.get $ptr) (local.get $len)) (i64.const 65536))
      (then
        (global.set $inside (i64.add (global.get $inside) (i64.const 1)))
        (drop (call $take (local.get $ptr) (local.get $len))))))

  ;; MISTAKE 3: what next answers is added up without a look, -4 and -6 with the rest; and the page is too short for a
  ;; record, so that a cut one would have been counted.
  (func $page (param $pages i32)
    (i64.store (i32.const 192) (i64.const 512))
    (i64.store (i32.const 200) (i64.const 5))
    (i64.store (i32.const 208) (i64.const 0))
    (i64.store (i32.const 216) (i64.const -1))
    (i64.store (i32.const 224) (i64.const -1))
    (i64.store (i32.const 232) (i64.const 0))
    (i64.store (i32.const 256) (call $open (i64.const 192)))
    (i64.store (i32.const 264) (i64.const 4096))
    (i64.store (i32.const 272) (i64.const 100))
    (loop $more
      (global.set $heard (i64.add (global.get $heard) (call $next (i64.const 256))))
      ;; a longer page from the second on: this one it can be given, until the units are spent
      (i64.store (i32.const 272) (i64.const 160))
      (local.set $pages (i32.sub (local.get $pages) (i32.const 1)))
      (br_if $more (local.get $pages))))

  ;; which mistake: user_data
  (func (export "filament_weave") (param $args i64) (result i64)
    (local $which i64)
    (local.set $which (i64.load offset=112 (i32.wrap_i64 (local.get $args))))
    (if (i64.eq (local.get $which) (i64.const 1)) (then (call $save (i32.const 3))))
    (if (i64.eq (local.get $which) (i64.const 2))
      (then
        (call $wrap (i64.const -8) (i64.const 16))
        (call $wrap (i64.const 65528) (i64.const 8))))
    (if (i64.eq (local.get $which) (i64.const 3)) (then (call $page (i32.const 5))))
    (i64.const 0)))
