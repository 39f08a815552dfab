; A day in a workshop with two machines. Each job takes some hours, has a deadline, and may need other jobs first. Of the
; jobs that are ready, the one with the nearest deadline gets the machine that is free first.

(deftemplate job "a job that has no machine yet"
  (slot name (type SYMBOL) (default ?NONE))
  (slot hours (type INTEGER) (default 1))
  (slot deadline (type INTEGER) (default ?NONE))
  (slot from (type INTEGER))                     ; the hour before which it can't start
  (slot state (type SYMBOL) (default waiting)))  ; or ready

(deftemplate need "a job, and another that has to be done before it"
  (slot job (type SYMBOL))
  (slot first (type SYMBOL)))

(deftemplate machine
  (slot name (type SYMBOL) (default ?NONE))
  (slot free (type INTEGER)))                    ; the hour from which it is free

(deftemplate planned "a job with its place in the plan"
  (slot job (type SYMBOL))
  (slot end (type INTEGER))
  (slot deadline (type INTEGER)))

; Preparing jobs comes before planning one: a job starts after all that it needs, and is ready when all that is planned.

(defrule start-later
  (declare (salience 20))
  (need (job ?name) (first ?other))
  (planned (job ?other) (end ?end))
  ?j <- (job (name ?name) (hours ?h) (deadline ?d) (from ?from&:(< ?from ?end)) (state ?s))
  =>
  (retract ?j)
  (assert (job (name ?name) (hours ?h) (deadline ?d) (from ?end) (state ?s))))

(defrule become-ready
  (declare (salience 10))
  ?j <- (job (name ?name) (hours ?h) (deadline ?d) (from ?from) (state waiting))
  (not (and (need (job ?name) (first ?other))
            (job (name ?other))))
  =>
  (retract ?j)
  (assert (job (name ?name) (hours ?h) (deadline ?d) (from ?from) (state ready))))

; "The nearest" is said by `not`: there is no ready job with a nearer deadline, and no machine that is free earlier.
(defrule plan
  ?j <- (job (name ?name) (hours ?h) (deadline ?d) (from ?from) (state ready))
  (not (job (state ready) (deadline ?nearer&:(< ?nearer ?d))))
  ?m <- (machine (name ?machine) (free ?free))
  (not (machine (free ?earlier&:(< ?earlier ?free))))
  =>
  (bind ?start (max ?from ?free))
  (bind ?end (+ ?start ?h))
  (retract ?j ?m)
  (assert (machine (name ?machine) (free ?end))
          (planned (job ?name) (end ?end) (deadline ?d)))
  (println ?start " to " ?end ", " ?machine ": " ?name))

(defrule late
  (planned (job ?name) (end ?end) (deadline ?d&:(< ?d ?end)))
  =>
  (println "  " ?name " is late by " (- ?end ?d)))

; What is left when no other rule can fire needs itself, in a circle.
(defrule circle
  (declare (salience -10))
  (job (name ?name))
  =>
  (println ?name " can't be planned"))

(deffacts jobs
  (machine (name saw))
  (machine (name mill))
  (job (name frame) (hours 4) (deadline 9))
  (job (name boards) (hours 3) (deadline 4))
  (job (name legs) (hours 2) (deadline 5))
  (job (name table) (hours 2) (deadline 8))
  (job (name polish) (deadline 5))
  (need (job table) (first boards))
  (need (job table) (first legs))
  (need (job polish) (first table)))

(println "Monday:")
(reset)
(run)

; Two jobs that need each other.
(deffacts jobs
  (machine (name saw) (free 8))
  (job (name glue) (deadline 12))
  (job (name press) (deadline 12))
  (job (name sand) (hours 2) (deadline 16))
  (need (job glue) (first press))
  (need (job press) (first glue)))

(println "Tuesday:")
(reset)
(run)
