;; A careful effect. It reads what an earlier module staged, writes a take, pages through the card upward and downward,
;; and panics when it is told to (user_data 9). It looks at every answer and hands a refusal on as its own return code.
(module
  (import "filament" "filament_write" (func $write (param i64) (result i64)))
  (import "filament" "filament_read" (func $read (param i64) (result i64)))
  (import "filament" "filament_tl_open" (func $open (param i64) (result i64)))
  (import "filament" "filament_tl_next" (func $next (param i64) (result i64)))
  (import "filament" "filament_tl_close" (func $close (param i64) (result i64)))
  (memory (export "memory") 1)

  ;; where things lie: argument records from 64 on, texts from 512 on, the value to write at 640, pages from 4096 on
  (data (i32.const 512) "loop/take")
  (data (i32.const 544) "filament/core/panic")
  (data (i32.const 576) "verse")

  (func $write_args (param $topic i64) (param $topic_len i64) (param $data i64) (param $len i64) (param $flags i32)
    (i64.store (i32.const 64) (local.get $topic))
    (i64.store (i32.const 72) (local.get $topic_len))
    (i64.store (i32.const 80) (local.get $data))
    (i64.store (i32.const 88) (local.get $len))
    (i32.store (i32.const 96) (local.get $flags)))

  ;; panic: answers 0, and nothing more is accepted
  (func $panic (result i64)
    (call $write_args (i64.const 544) (i64.const 19) (i64.const 0) (i64.const 0) (i32.const 1))
    (call $write (i64.const 64)))

  ;; the bytes of the staged takes, put at 4096
  (func $read_staged (result i64)
    (i64.store (i32.const 128) (i64.const 512))
    (i64.store (i32.const 136) (i64.const 9))
    (i64.store (i32.const 144) (i64.const 0))
    (i64.store (i32.const 152) (i64.const 4096))
    (i64.store (i32.const 160) (i64.const 2048))
    (call $read (i64.const 128)))

  ;; a take of its own: the string "verse", as a value
  (func $first_take (result i64)
    (i32.store (i32.const 640) (i32.const 5))
    (i32.store (i32.const 644) (i32.const 0))
    (i64.store (i32.const 648) (i64.const 576))
    (i64.store (i32.const 656) (i64.const 5))
    (call $write_args (i64.const 512) (i64.const 9) (i64.const 640) (i64.const 32) (i32.const 2))
    (call $write (i64.const 64)))

  ;; an echo: the text of the staged string, raw. Its ptr is the address where its bytes now lie, in the page itself.
  (func $echo (result i64)
    (call $write_args (i64.const 512) (i64.const 9)
      (i64.load (i32.const 4248))  ;; 4096 + 128 + up8(9) + 8
      (i64.load (i32.const 4256))
      (i32.const 1))
    (call $write (i64.const 64)))

  ;; how many records there are in a page of so many bytes
  (func $records (param $bytes i64) (result i64)
    (local $at i64)
    (local $n i64)
    (block $done
      (loop $more
        (br_if $done (i64.ge_u (local.get $at) (local.get $bytes)))
        (local.set $at (i64.add (local.get $at)
          (i64.load32_u (i32.add (i32.const 4096) (i32.wrap_i64 (local.get $at))))))
        (local.set $n (i64.add (local.get $n) (i64.const 1)))
        (br $more)))
    (local.get $n))

  ;; how many takes a cursor lists, in pages of 400 bytes; or the code of the call that was refused
  (func $count (param $desc i32) (result i64)
    (local $handle i64)
    (local $bytes i64)
    (local $n i64)
    (i64.store (i32.const 192) (i64.const 512))
    (i64.store (i32.const 200) (i64.const 5))  ;; "loop/"
    (i64.store (i32.const 208) (i64.const 0))
    (i64.store (i32.const 216) (i64.const -1))
    (i64.store (i32.const 224) (i64.const -1))
    (i32.store8 (i32.const 232) (local.get $desc))
    (local.set $handle (call $open (i64.const 192)))
    (if (i64.lt_s (local.get $handle) (i64.const 0)) (then (return (local.get $handle))))
    (block $end
      (loop $page
        (i64.store (i32.const 256) (local.get $handle))
        (i64.store (i32.const 264) (i64.const 4096))
        (i64.store (i32.const 272) (i64.const 400))
        (local.set $bytes (call $next (i64.const 256)))
        (if (i64.lt_s (local.get $bytes) (i64.const 0)) (then (return (local.get $bytes))))
        (br_if $end (i64.eqz (local.get $bytes)))
        (local.set $n (i64.add (local.get $n) (call $records (local.get $bytes))))
        (br $page)))
    (i64.store (i32.const 288) (local.get $handle))
    (local.set $bytes (call $close (i64.const 288)))
    (if (i64.lt_s (local.get $bytes) (i64.const 0)) (then (return (local.get $bytes))))
    (local.get $n))

  (func $work (result i64)
    (local $answer i64)
    (local $up i64)
    (local.set $answer (call $read_staged))
    (if (i64.lt_s (local.get $answer) (i64.const 0)) (then (return (local.get $answer))))
    (local.set $answer
      (if (result i64) (i64.eqz (local.get $answer)) (then (call $first_take)) (else (call $echo))))
    (if (i64.lt_s (local.get $answer) (i64.const 0)) (then (return (local.get $answer))))
    (local.set $up (call $count (i32.const 0)))
    (if (i64.lt_s (local.get $up) (i64.const 0)) (then (return (local.get $up))))
    (local.set $answer (call $count (i32.const 1)))
    (if (i64.lt_s (local.get $answer) (i64.const 0)) (then (return (local.get $answer))))
    ;; the same takes both ways, or the box has lost one
    (if (i64.ne (local.get $answer) (local.get $up)) (then (return (i64.const -3))))
    (i64.const 0))

  ;; 0 is "park": the turn goes on, and after the last module the weave is committed
  (func (export "filament_weave") (param $args i64) (result i64)
    (if (result i64)
      (i64.eq (i64.load offset=112 (i32.wrap_i64 (local.get $args))) (i64.const 9))
      (then (call $panic))
      (else (call $work)))))
