; Why does the heating fail? Rules turn what was seen and measured into findings, and a report lists these, the most
; certain one first.

(deftemplate seen "a sign that the tenant reports"
  (slot sign (type SYMBOL) (default ?NONE)))

(deftemplate reading "a value that the boiler measures"
  (slot of (type SYMBOL) (default ?NONE))
  (slot value (type INTEGER) (default ?NONE)))

(deftemplate finding "a possible cause, and how certain it is"
  (slot cause (type SYMBOL) (default ?NONE))
  (slot percent (type INTEGER) (default ?NONE))
  (slot because (type STRING)))

(defrule low-pressure
  (reading (of decibar) (value ?p&:(< ?p 10)))
  =>
  (assert (finding (cause low-pressure) (percent 95) (because (str-cat "the gauge shows " ?p " decibar")))))

; A finding may lead to another.
(defrule leak
  (finding (cause low-pressure))
  (seen (sign damp-floor))
  =>
  (assert (finding (cause leak) (percent 70) (because "pressure is lost, and the floor is damp"))))

(defrule stuck-pump
  (reading (of flow) (value ?flow))
  (reading (of return) (value ?return))
  (test (> (- ?flow ?return) 25))
  =>
  (assert (finding (cause stuck-pump) (percent 60) (because "the water comes back cold"))))

; A second sign makes a cause more certain. The limit of 80 keeps the rule from firing for the finding that it adds.
(defrule humming-pump
  ?f <- (finding (cause stuck-pump) (percent ?p&:(< ?p 80)))
  (seen (sign humming))
  =>
  (retract ?f)
  (assert (finding (cause stuck-pump) (percent 80) (because "the water comes back cold, and the pump hums"))))

; Either sign is enough. If both are seen, the rule fires twice, but the second finding equals the first and isn't added.
(defrule trapped-air
  (or (seen (sign gurgling)) (seen (sign cold-at-the-top)))
  =>
  (assert (finding (cause trapped-air) (percent 40) (because "it gurgles, or is cold at the top"))))

(defrule no-sensor
  (not (reading (of room)))
  =>
  (assert (finding (cause room-sensor) (percent 30) (because "the room has no reading"))))

; The report waits, by its salience, until there are no more findings to add.

(defrule heading
  (declare (salience -10))
  (exists (finding))
  =>
  (println "Possible causes:"))

(defrule all-well
  (declare (salience -10))
  (not (finding))
  (not (reported ?))
  =>
  (println "Nothing found."))

; Each time, the most certain finding that is left.
(defrule report
  (declare (salience -20))
  ?f <- (finding (cause ?cause) (percent ?p) (because ?why))
  (not (finding (percent ?q&:(> ?q ?p))))
  =>
  (retract ?f)
  (assert (reported ?cause))
  (println "  " ?p " % " ?cause ": " ?why))

(deffacts visit
  (reading (of flow) (value 62)) (reading (of return) (value 31)) (reading (of decibar) (value 6))
  (seen (sign gurgling)) (seen (sign cold-at-the-top)) (seen (sign humming)) (seen (sign damp-floor)))

(println "First visit")
(reset)
(run)

; The facts of the second visit take the place of those of the first.
(deffacts visit
  (reading (of flow) (value 55))
  (reading (of return) (value 41))
  (reading (of decibar) (value 15))
  (reading (of room) (value 20)))

(println "Second visit")
(reset)
(run)
