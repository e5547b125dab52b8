;; A module whose calls the tests choose. `main` copies its words to stream 2, a line each, and its input to stream 1, in pieces of
;; at most 16 bytes. It traps at a piece that begins with T, takes 16 more pages of memory at one that begins with G, and counts its
;; calls at 1,024. Its status is 0, or 3 where a read failed, 4 where a write failed, 6 where memory was refused, and at a piece
;; that begins with N the number of its calls.
(module
  (import "host" "read" (func $read (param i32 i64 i64) (result i64)))
  (import "host" "write" (func $write (param i32 i64 i64) (result i64)))
  (import "host" "arg" (func $arg (param i64 i64 i64) (result i64)))
  (memory (export "memory") 2)
  (func (export "main") (param i32 i64) (result i32)
    (local $count i64)
    (local $at i64)
    (i32.store (i32.const 1024) (i32.add (i32.load (i32.const 1024)) (i32.const 1)))
    (block $end
      (loop $next
        (local.set $count (call $arg (local.get $at) (i64.const 64) (i64.const 8)))
        (br_if $end (i64.lt_s (local.get $count) (i64.const 0)))
        ;; A line feed behind the word, of which there is room for 8 bytes.
        (if (i64.gt_s (local.get $count) (i64.const 8)) (then (local.set $count (i64.const 8))))
        (i32.store8 (i32.add (i32.const 64) (i32.wrap_i64 (local.get $count))) (i32.const 10))
        (drop (call $write (i32.const 2) (i64.const 64) (i64.add (local.get $count) (i64.const 1))))
        (local.set $at (i64.add (local.get $at) (i64.const 1)))
        (br $next)))
    (loop $next
      (local.set $count (call $read (i32.const 0) (i64.const 0) (i64.const 16)))
      (if (i64.lt_s (local.get $count) (i64.const 0)) (then (return (i32.const 3))))
      (if (i64.eqz (local.get $count)) (then (return (i32.const 0))))
      (if (i32.eq (i32.load8_u (i32.const 0)) (i32.const 84)) (then (unreachable)))
      (if (i32.eq (i32.load8_u (i32.const 0)) (i32.const 78)) (then (return (i32.load (i32.const 1024)))))
      (if (i32.eq (i32.load8_u (i32.const 0)) (i32.const 71))
        (then (if (i32.lt_s (memory.grow (i32.const 16)) (i32.const 0)) (then (return (i32.const 6))))))
      (if (i64.lt_s (call $write (i32.const 1) (i64.const 0) (local.get $count)) (i64.const 0)) (then (return (i32.const 4))))
      (br $next))
    (unreachable)))
