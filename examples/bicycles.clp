; Orders of a workshop for bicycles. An order is packed as soon as enough of each of its parts is on the shelf. What goes into
; one order isn't there for the next.

(deftemplate order
  (slot number (type INTEGER) (default ?NONE))
  (slot for (type STRING)))

(deftemplate part "a part of an order"
  (slot order (type INTEGER) (default ?NONE))
  (slot name (type SYMBOL) (default ?NONE))
  (slot count (type INTEGER) (default 1)))

(deftemplate shelf
  (slot name (type SYMBOL) (default ?NONE))
  (slot count (type INTEGER)))

(defrule unpack
  (declare (salience 20))
  ?d <- (delivered ?name ?n)
  ?shelf <- (shelf (name ?name) (count ?there))
  =>
  (retract ?d)
  (modify ?shelf (count (+ ?there ?n))))

; Of the orders that can be packed, the one that came first goes first.
(defrule pack
  ?order <- (order (number ?n) (for ?who))
  (forall (part (order ?n) (name ?part) (count ?wanted))
          (shelf (name ?part) (count ?there&:(>= ?there ?wanted))))
  (not (and (order (number ?m&:(< ?m ?n)))
            (forall (part (order ?m) (name ?part) (count ?wanted))
                    (shelf (name ?part) (count ?there&:(>= ?there ?wanted))))))
  =>
  (retract ?order)
  (assert (packed ?n))
  (println "Order " ?n " is packed for " ?who "."))

(defrule take
  (declare (salience 10))
  (packed ?n)
  ?part <- (part (order ?n) (name ?name) (count ?wanted))
  ?shelf <- (shelf (name ?name) (count ?there))
  =>
  (retract ?part)
  (modify ?shelf (count (- ?there ?wanted))))

; What is missing, once nothing more can be packed.
(defrule wait
  (declare (salience -10))
  (order (number ?n))
  (part (order ?n) (name ?part) (count ?wanted))
  (not (shelf (name ?part) (count ?there&:(>= ?there ?wanted))))
  =>
  (println "Order " ?n " waits for " ?part "."))

(defrule done
  (declare (salience -20))
  (not (order))
  =>
  (println "All orders are packed."))

(deffacts monday
  (shelf (name frame) (count 2))
  (shelf (name wheel) (count 3))
  (shelf (name bell) (count 5))
  (order (number 1) (for "Ann"))
  (part (order 1) (name frame))
  (part (order 1) (name wheel) (count 2))
  (order (number 2) (for "Bob"))
  (part (order 2) (name frame))
  (part (order 2) (name wheel) (count 2))
  (part (order 2) (name bell))
  (order (number 3) (for "Cid"))
  (part (order 3) (name bell) (count 2))
  (order (number 4) (for "Dee")))                ; who comes for the invoice alone

(reset)
(run)
(println "Wheels come.")
(assert (delivered wheel 4))
(run)
