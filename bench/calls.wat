;; The thirtieth Fibonacci number by recursive calls: 29.6 million ticks.
(module
  (global $number (mut i32) (i32.const 0))
  (func (export "wizer.initialize")
    (global.set $number (call $fibonacci (i32.const 30))))
  (func (export "result") (result i32)
    (global.get $number))
  (func $fibonacci (param $n i32) (result i32)
    (if (result i32) (i32.lt_s (local.get $n) (i32.const 2))
      (then (local.get $n))
      (else
        (i32.add
          (call $fibonacci (i32.sub (local.get $n) (i32.const 1)))
          (call $fibonacci (i32.sub (local.get $n) (i32.const 2))))))))
