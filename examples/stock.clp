; The shelves of a shop. What is delivered and sold changes the count of an article, which keeps its index all day. An article
; of which little is left is ordered once, and not again until enough of it has come.

(deftemplate article
  (slot name (type SYMBOL) (default ?NONE))
  (slot count (type INTEGER))
  (slot least (type INTEGER) (default 3))        ; with fewer than this it is ordered
  (slot state (type SYMBOL) (default there))     ; or ordered
  (multislot waiting (type STRING)))             ; those who get theirs when it comes

(deftemplate delivery
  (slot of (type SYMBOL))
  (slot count (type INTEGER)))

(deftemplate sale
  (slot of (type SYMBOL))
  (slot to (type STRING)))

; Whatever comes is on the shelf before anybody asks for it.
(defrule deliver
  (declare (salience 10))
  ?delivery <- (delivery (of ?name) (count ?n))
  ?article <- (article (name ?name) (count ?there))
  =>
  (retract ?delivery)
  (modify ?article (count (+ ?there ?n)))
  (println ?n " " ?name ": now " (+ ?there ?n)))

(defrule hand-out
  (declare (salience 5))
  ?article <- (article (name ?name) (count ?there&~0) (waiting ?first $?others))
  =>
  (modify ?article (count (- ?there 1)) (waiting ?others))
  (println ?first " gets the " ?name ": " (- ?there 1) " left"))

(defrule sell
  ?sale <- (sale (of ?name) (to ?who))
  ?article <- (article (name ?name) (waiting $?queue))
  =>
  (retract ?sale)
  (modify ?article (waiting ?queue ?who)))

(defrule order
  (declare (salience -10))
  ?article <- (article (name ?name) (count ?there) (least ?least&:(< ?there ?least)) (state there))
  =>
  (modify ?article (state ordered))
  (println "order: " ?name))

(defrule arrive
  ?article <- (article (count ?there) (least ?least&:(>= ?there ?least)) (state ordered))
  =>
  (modify ?article (state there)))

(deffacts shop
  (article (name lamp) (count 2) (least 1))
  (article (name kettle) (count 4)))

(reset)
(assert (sale (of lamp) (to "Ann"))
        (sale (of kettle) (to "Bob"))
        (sale (of kettle) (to "Cid")))
(run)
(assert (sale (of lamp) (to "Dee"))
        (sale (of lamp) (to "Eve"))
        (delivery (of kettle) (count 5)))
(run)
(facts)
(assert (delivery (of lamp) (count 2)))
(run)
(facts)
