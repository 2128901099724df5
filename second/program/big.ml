(* Whole numbers without bound, by Zarith, in the shapes that Coq's have. *)
include Z

let odd_above half = succ (shift_left half 1)
let even_above half = shift_left half 1
let positive_case odd even one p =
  if equal p Z.one then one () else (if is_odd p then odd else even) (shift_right p 1)
let number_case zero above below z =
  match sign z with 0 -> zero () | 1 -> above z | _ -> below (neg z)

(* Coq's quotients are rounded down, and by 0 they are 0; the remainder by 0 is the number. *)
let quotient a b = if equal b Z.zero then Z.zero else fdiv a b
let remainder a b = if equal b Z.zero then a else sub a (mul b (fdiv a b))
let power a k = if sign k < 0 then Z.zero else pow a (to_int k)
let to_nat z = if sign z <= 0 then 0 else to_int z
let to_positive z = if sign z <= 0 then Z.one else z
let testbit z k = sign k >= 0 && Z.testbit z (to_int k)
let shift_left_by z k = if sign k >= 0 then shift_left z (to_int k) else shift_right z (to_int (neg k))
let setbit z k = logor z (shift_left_by Z.one k)
let signed z = of_int (sign z)
let comparison a b = Z.compare a b
