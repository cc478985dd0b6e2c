;; The primes below 2^20 by a sieve with one byte a number: loads, stores, branches and short
;; loops, 47.7 million ticks.
(module
  (memory 16)
  (global $primes (mut i32) (i32.const 0))
  (func (export "wizer.initialize")
    (local $n i32) (local $multiple i32)
    (local.set $n (i32.const 2))
    (loop $numbers
      (block $composite
        (br_if $composite (i32.load8_u (local.get $n)))
        (global.set $primes (i32.add (global.get $primes) (i32.const 1)))
        (local.set $multiple (i32.add (local.get $n) (local.get $n)))
        (block $done
          (loop $multiples
            (br_if $done (i32.ge_u (local.get $multiple) (i32.const 1048576)))
            (i32.store8 (local.get $multiple) (i32.const 1))
            (local.set $multiple (i32.add (local.get $multiple) (local.get $n)))
            (br $multiples))))
      (br_if $numbers
        (i32.lt_u
          (local.tee $n (i32.add (local.get $n) (i32.const 1)))
          (i32.const 1048576)))))
  (func (export "result") (result i32)
    (global.get $primes)))
