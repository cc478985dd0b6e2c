;; Two million rounds of mixing 64-bit numbers by shifts, exclusive or and multiplication: 62.0
;; million ticks.
(module
  (global $sum (mut i64) (i64.const 0))
  (func (export "wizer.initialize")
    (local $x i64) (local $total i64) (local $round i32)
    (local.set $x (i64.const 88172645463325252))
    (loop $rounds
      (local.set $x (i64.xor (local.get $x) (i64.shl (local.get $x) (i64.const 13))))
      (local.set $x (i64.xor (local.get $x) (i64.shr_u (local.get $x) (i64.const 7))))
      (local.set $x (i64.xor (local.get $x) (i64.shl (local.get $x) (i64.const 17))))
      (local.set $total
        (i64.mul (i64.add (local.get $total) (local.get $x)) (i64.const 0x9e3779b97f4a7c15)))
      (br_if $rounds
        (i32.lt_u
          (local.tee $round (i32.add (local.get $round) (i32.const 1)))
          (i32.const 2000000))))
    (global.set $sum (local.get $total)))
  (func (export "result") (result i64)
    (global.get $sum)))
