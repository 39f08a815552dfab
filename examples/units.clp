; A cutting list from an American plan, in metric units. There are no floats, so lengths are counted in tenths of a
; millimetre, in which an inch is a whole number.

(defglobal ?*inch* = 254
           ?*foot* = (* 12 ?*inch*)
           ?*kerf* = 30)             ; what the saw takes at each cut: 3 mm

; The pieces, each in feet and inches.
(defglobal ?*pieces* = (create$ 7 5  3 0  0 11  1 2))

; The last action prints and has no value, so no value is shown after it.
(if TRUE then
  (bind ?list ?*pieces*)
  (bind ?total 0)
  (while (neq ?list (create$)) do
    (bind ?feet (nth$ 1 ?list))
    (bind ?inches (nth$ 2 ?list))
    (bind ?list (rest$ (rest$ ?list)))
    (bind ?length (+ (* ?feet ?*foot*) (* ?inches ?*inch*)))
    (bind ?total (+ ?total ?length ?*kerf*))
    (bind ?mm (div (+ ?length 5) 10))            ; rounded to a millimetre
    (bind ?rest (mod ?mm 1000))
    (bind ?zeros (if (< ?rest 10) then "00" else (if (< ?rest 100) then "0" else "")))
    (println ?feet "' " ?inches "\" = " (div ?mm 1000) "." ?zeros ?rest " m"))
  (println "Board needed: " (div (+ ?total 9) 10) " mm"))

; A thinner saw, for once. `reset` brings back the usual one.
(bind ?*kerf* 12)
(bind ?cuts (div (length$ ?*pieces*) 2))
(println "Lost to the thin saw: " (div (+ (* ?cuts ?*kerf*) 9) 10) " mm")
(reset)
(println "The usual saw takes " (div ?*kerf* 10) " mm a cut.")

; The glue needs some warmth. The nearest whole degree: `div` truncates towards zero, so half a degree is added first,
; away from zero.
(defglobal ?*fahrenheit* = (create$ 50 75 0 -40))
(if TRUE then
  (bind ?list ?*fahrenheit*)
  (while (> (length$ ?list) 0) do
    (bind ?f (nth$ 1 ?list))
    (bind ?list (rest$ ?list))
    (bind ?ninths (* 5 (- ?f 32)))
    (bind ?half (if (< ?ninths 0) then -9 else 9))
    (print ?f " F = " (div (+ (* 2 ?ninths) ?half) 18) " C")
    (println (if (< ?f 60) then ", too cold to glue" else "")))
  (println "Done."))
