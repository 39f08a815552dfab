; A configuration of hosts and services, checked before it is rolled out. The exit status is 10 if there is a problem, so
; that whatever calls clipsbatch can stop there.

(deftemplate host "a machine"
  (slot name (type SYMBOL) (default ?NONE))
  (multislot open (type INTEGER)))               ; the ports that the firewall lets through

(deftemplate service "a program that runs on a host"
  (slot name (type SYMBOL) (default ?NONE))
  (slot on (type SYMBOL) (default ?NONE))
  (slot port (type INTEGER) (default 8080))
  (slot public (type SYMBOL) (default no))
  (multislot needs (type SYMBOL)))               ; names of other services

(deftemplate problem
  (slot of (type SYMBOL))
  (slot text (type STRING)))

(defglobal ?*problems* = 0)

; What may be wrong. Each of these rules adds a problem, and none prints.

(defrule unknown-host
  (service (name ?s) (on ?h))
  (not (host (name ?h)))
  =>
  (assert (problem (of ?s) (text (str-cat "runs on " ?h ", which isn't a host")))))

(defrule missing-service
  (service (name ?s) (needs $? ?n $?))
  (not (service (name ?n)))
  =>
  (assert (problem (of ?s) (text (str-cat "needs " ?n ", which doesn't run")))))

; However many others share the port, `exists` holds once.
(defrule port-taken
  (service (name ?s) (on ?h) (port ?p))
  (exists (service (name ~?s) (on ?h) (port ?p)))
  =>
  (assert (problem (of ?s) (text (str-cat "shares port " ?p " of " ?h)))))

(defrule port-closed
  (service (name ?s) (on ?h) (port ?p) (public yes))
  (host (name ?h) (open $?open))
  (test (not (member$ ?p ?open)))
  =>
  (assert (problem (of ?s) (text (str-cat "is public, but " ?h " lets nothing through to port " ?p)))))

; Nothing runs on the host. The only host may be idle.
(defrule idle-host
  (host (name ?h))
  (exists (host (name ~?h)))
  (not (service (on ?h)))
  =>
  (assert (problem (of ?h) (text "has no service"))))

; The report comes when all checks are done: its salience is lower than theirs.

(defrule tell
  (declare (salience -10))
  (problem (of ?who) (text ?text))
  =>
  (bind ?*problems* (+ ?*problems* 1))
  (println ?who ": " ?text))

(defrule sound
  (declare (salience -20))
  (not (problem))
  =>
  (println "No problems."))

(deffacts cluster
  (host (name north) (open 80 443))
  (host (name south) (open 443))
  (host (name spare))
  (service (name web) (on north) (port 443) (public yes) (needs shop search))
  (service (name shop) (on south) (needs db))
  (service (name mail) (on south) (port 25) (public yes))
  (service (name db) (on east) (port 5432))
  (service (name metrics) (on south)))

(reset)
(run)
(println "Problems: " ?*problems*)
(exit (if (> ?*problems* 0) then 10 else 0))      ; status 10
