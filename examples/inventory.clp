; The contents of the storeroom. Each line of a count is a fact, and a line that both people counted is one fact.

(printout t "Storeroom 4, counted by two people" crlf)

; The first count.
(assert (item bolt m6 1200)
        (item bolt m8 350)
        (item nut m6 900)
        (note bolt m8 "box \"B\" is torn"))

; The second count. A line that agrees with the first adds no fact.
(assert (item nut m6 900))
(assert (item bolt m8 345)
        (item washer m6 280))

(printout t "All that was counted:" crlf)
(facts)
