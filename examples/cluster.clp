; The configuration of a small cluster, checked before it is rolled out. Services and settings have templates: a port
; that isn't a number or a service without a name would be a fault, and the exit status would be 1.

(deftemplate service "a program that runs on a machine"
  (slot name (type SYMBOL) (default ?NONE))
  (slot port (type INTEGER) (default 8080))
  (slot host (type STRING))
  (multislot needs (type SYMBOL)))

(deftemplate setting
  (slot of (type SYMBOL) (default ?NONE))
  (slot key (type LEXEME) (default ?NONE))
  (slot value (default on)))

; What each cluster has.
(deffacts standard
  (service (name db) (port 5432) (host "db-1.local"))
  (setting (of db) (key backup)))
(deffacts roles
  (must-run db)
  (must-run web))

(reset)
(printout t "Each cluster:" crlf)
(facts)

; What this cluster adds.
(printout t crlf "This cluster:" crlf)
(assert (service (name web) (needs db cache)))
(bind ?mail (assert (service (needs db) (name mail) (port 25))))
(assert (setting (of web) (key "max clients") (value 200)))
(assert (service (name cache) (port 6379)))

; Mail moves to another host, and its service is removed.
(retract ?mail)
(facts)
