; The night's readings of a cold store, checked against the limits of each room.

(deftemplate reading
  (slot room (type SYMBOL) (default ?NONE))
  (slot hour (type INTEGER) (default ?NONE))
  (slot celsius (type INTEGER)))

(deftemplate finding
  (slot room (type SYMBOL))
  (slot kind (type SYMBOL))
  (slot degrees (type INTEGER)))     ; how far outside the limits

(deftemplate night
  (slot readings (type INTEGER))
  (slot findings (type INTEGER))
  (multislot rooms))                 ; those with a finding

; Each room, with its lowest and highest allowed temperature.
(defglobal ?*limits* = (create$ dairy 2 6  freezer -25 -18  cellar 8 14))

; When the readings were taken, and what they were, room by room.
(defglobal ?*hours* = (create$ 22 2)
           ?*celsius* = (create$ 5 4  -24 -16  7 8))

; What the check counts.
(defglobal ?*taken* = 0 ?*found* = 0 ?*rooms* = (create$))

; The whole check is one item. Its last action prints and has no value, so no value is shown after it.
(if TRUE then
  (bind ?limits ?*limits*)
  (while (> (length$ ?limits) 0) do
    (bind ?room (nth$ 1 ?limits))
    (bind ?least (nth$ 2 ?limits))
    (bind ?greatest (nth$ 3 ?limits))
    (bind ?limits (rest$ (rest$ (rest$ ?limits))))
    (print ?room ", " ?least " to " ?greatest ":")
    (bind ?hours ?*hours*)
    (while (> (length$ ?hours) 0) do
      (bind ?*taken* (+ ?*taken* 1))
      (bind ?c (nth$ ?*taken* ?*celsius*))
      (assert (reading (room ?room) (hour (nth$ 1 ?hours)) (celsius ?c)))
      (bind ?hours (rest$ ?hours))
      (print " " ?c)
      (bind ?over (max (- ?c ?greatest) (- ?least ?c)))
      (if (> ?over 0) then
        (bind ?kind (if (> ?c ?greatest) then too-warm else too-cold))
        (print " (" ?kind ")")
        (assert (finding (room ?room) (kind ?kind) (degrees ?over)))
        (bind ?*found* (+ ?*found* 1))
        (if (not (member$ ?room ?*rooms*)) then (bind ?*rooms* ?*rooms* ?room))))
    (println))
  (println ?*taken* " readings, " ?*found* " outside the limits."))

(assert (night (readings ?*taken*) (findings ?*found*) (rooms ?*rooms*)))
(facts)
