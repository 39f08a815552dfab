#!/bin/sh
# Refuses each growth of memory in turn in the built program: the first alone, the second alone,
# and so on; and then each with all after it. A refused run must end with status 3, say that it is out of memory, and have
# written a beginning of what it writes with ample memory. What is refused may also be asked for again and be had, as the room for
# the program's words, or be for the line on standard error that says where faults arose: then the transcript and the status must be
# the same as with ample memory.
# Run it from anywhere, with a C compiler and the GNU C library:
#
#     benches/refusals.sh
#
# It proves and builds the programs first, prints how many growths were refused, and ends with status 1 at a run that is wrong.
set -eu

. "$(dirname "$0")/built.sh"

# Counts the calls of malloc, calloc and realloc, and refuses that of the number REFUSE, and with REFUSE_ALL each after it. It
# makes the file REFUSED when it refuses one.
cat >"$place/refusing.c" <<'END'
#include <errno.h>
#include <fcntl.h>
#include <stdlib.h>
#include <unistd.h>

extern void *__libc_malloc(size_t);
extern void *__libc_calloc(size_t, size_t);
extern void *__libc_realloc(void *, size_t);

static long refuse, calls;
static int refuse_all;

__attribute__((constructor)) static void begin(void) {
    const char *number = getenv("REFUSE");
    refuse = number ? atol(number) : 0;
    refuse_all = getenv("REFUSE_ALL") != 0;
    calls = 0;
}

static int is_refused(void) {
    calls++;
    if (refuse == 0 || calls < refuse || (calls > refuse && !refuse_all))
        return 0;
    if (calls == refuse) {
        int file = open(getenv("REFUSED"), O_CREAT | O_WRONLY, 0600);
        if (file >= 0)
            close(file);
    }
    errno = ENOMEM;
    return 1;
}

void *malloc(size_t size) { return is_refused() ? 0 : __libc_malloc(size); }
void *calloc(size_t n, size_t size) { return is_refused() ? 0 : __libc_calloc(n, size); }
void *realloc(void *old, size_t size) { return is_refused() ? 0 : __libc_realloc(old, size); }
END
cc -O1 -fPIC -shared -o "$place/refusing.so" "$place/refusing.c"

# The scripts for clipsbatch, one a line.
scripts() {
    cat <<'END'
red "a \"b\" c\\" -007 ?x ?*g* & () (bogus)
(assert (color red) (size "X L" 40))(assert (color red))(facts)
(printout t "a" tab b crlf 12 "two words" crlf)(printout nil x)(printout stdout y)(printout other z)
(deftemplate p (slot n) (multislot h))(assert (p (h x "y z")))(facts)
(deftemplate t "a text" (slot k (type INTEGER)))(assert (t (k x)))(assert (t))(assert (t (k 7)))(facts)
(deftemplate t (slot k (default ?NONE)) (multislot m (default 1 "b")))(assert (t (m)))(assert (t (k z)))(assert (t (k z) (m 1 "b")))(facts)
(deffacts d (a) (b 2))(assert (z))(reset)(facts)(deffacts d "anew" (a) (c "x"))(reset)(facts)
(deftemplate p (slot n (default 3)))(deffacts d (p) (p (n 4)) (q "r" s))(deffacts e (p (n 5)))(reset)(facts)(reset)(facts)
(deffacts d (p (n 1)))(deffacts d (?x))(deffacts 3 (a))(deffacts d 3)(reset)(facts)
(assert (p 1))(deftemplate p (slot q))(clear)(deftemplate p (slot q))(assert (p))(facts)
(deffacts d (a))(deftemplate p (slot q))(assert (p) (c))(clear)(reset)(facts)(assert (p q))(facts)
(assert (a) (b) (c))(retract 2)(retract 2)(facts)(retract *)(assert (d))(retract 4 x)(retract 4 5)
(deftemplate t (slot a (type FLOAT)))(deftemplate t (slot a) (slot a))(deftemplate t (slot a (default x) (type INTEGER)))(deftemplate t (slot a (default (f))))(deftemplate test)
(assert (a ?) (b))(assert (a 1.5))(assert (a 99999999999999999999))(assert 3)(assert (and))(reset 1)(clear 1)(retract)(retract a)(run)
(defglobal ?*n* = 1 ?*m* = (create$ a "b" ?*n*))(bind ?x 1 2 (+ ?*n* 1))?x (bind ?*n* (length$ ?x))(defglobal ?*n* = 7 ?*o* = (div 1 0))?*n* ?*o* (reset)?*n* ?x
(bind ?i 0)(while (< ?i 5) do (bind ?i (+ ?i 1)) (if (= (mod ?i 2) 0) then (print ?i " ") else (println "odd " ?i)))(while (> ?i 0) (bind ?i (- ?i 1)))?i
(deftemplate p (slot n) (multislot m))(assert (p (n (* 2 3)) (m (create$ 1 "two") (sym-cat t 3))) (q (str-cat "a" 1 b)))(facts)(retract (assert (r (sym-cat "x" 1))) 1)(facts)
(deffacts d (a (+ ?*n* 1)))(defglobal ?*n* = 4)(deffacts d (a (+ ?*n* 1) (rest$ (create$ x "y z" 3))))(reset)(facts)(bind ?*n* 9)(reset)(facts)
(str-cat a "b" 3)(sym-cat "a b" c -4)(rest$ (create$ 1 2 3))(first$ (create$ a b c))(nth$ 2 (create$ a "b c"))(nth$ 9 (create$ a))(and TRUE FALSE (div 1 0))(or FALSE 3)(not 3)(member$ b (create$ a b))(length$ (create$ a (create$ b c)))
(println (create$ 1 "two" three) " " (+ 1 a))(if (bind ?y (create$)) then ?y)(assert (bind ?z))(bind ?q)(print ?u (bind ?u 1))(max 1 2 3)(eq a a)(neq a b)(while FALSE)
(assert (1 (2 (3 (4 "5" (6))))))(assert (a (b)))((((((((((x))))))))))) (printout t (+ 1 2) crlf)(not closed
END
    # Enough facts for the tables to grow.
    awk 'BEGIN { for (i = 1; i <= 40; i++) printf "(assert (part %d bolt) (shelf \"number %d\"))", i, i; print "(facts)(retract *)" }'
    # More than one block.
    awk 'BEGIN { printf "(assert (long"; for (i = 1; i <= 1200; i++) printf " %d", i; print "))(facts)(printout t \"end\" crlf)" }'
}

# Rules and what they do, one script a line.
rule_scripts() {
    cat <<'END'
(defrule a (p $?x ?y ?z&=(length$ ?x)) => (println ?x ?y ?z))(assert (p a "b" 2 1))(assert (p))(assert (q))(assert (p a 1 1))(agenda)(run)(defrule b (p ~~a) =>)
(deftemplate part (slot name) (multislot sizes))(defrule a "text" (declare (salience (* 2 5))) ?f <- (part (sizes $? ?s&:(> ?s 2) $?) (name ?n&~red|blue)) (q ~?f ?n) => (retract ?f) (println ?n))(watch all)(assert (q 1 bolt))(assert (part (name bolt) (sizes 1 8 9)))(run)(facts)
(defrule a (p ?x&red|"blue"|=(sym-cat g ?x)|:(eq ?x 7) ~?x&:(neq ?x (create$ 1 ?x))) => (println ?x))(assert (p red 1) (p "blue" red) (p 7 7))(run)(defrule a (p ?x) =>)(rules)(undefrule *)
(defrule count ?n <- (n ?x&:(< ?x 20)) => (retract ?n) (assert (n (+ ?x 1))))(deffacts start (n 0))(reset)(run 5)(agenda)(set-strategy breadth)(run)(facts)(clear)(rules)
(defrule x (exists (a ?n) (b ?n)) => (printout t yes crlf))(assert (a 1) (b 2))(run)(assert (a 2))(assert (b 1))(run)(defrule n (not (stop)) => (printout t "go" crlf))(run)(run)(assert (stop))(retract 5)(run)
(watch activations)(defrule m (a ?x) (not (b ?x)) (c ?x) => (printout t ?x crlf))(assert (a 1) (a 2) (c 1) (c 2) (b 2))(run)(retract 5)(run)(defrule g (not (and (n ?x) (test (> ?x 3)))) => (printout t small crlf))(assert (n 2))(run)(assert (n 9))(retract 6)(run)
(defrule o (or (p ?x) (and (q ?x) (not (r ?x)))) (exists (s) (t)) => (printout t ?x crlf))(assert (p 1) (q 2) (s) (t))(agenda)(run)(defrule n (not (not (a))) =>)(defrule n (exists (a ?x)) => (println ?x))(deftemplate s)
(watch all)(defrule e =>)(defrule n (not (a)) =>)(deffacts d (a))(reset)(rules)(undefrule e)(undefrule e)(undefrule *)(unwatch all)(watch x)(exit 256)(exit)
(defrule c (n ?h) (next ?g&:(= ?g (+ ?h 1))) (column ?c&:(not (member$ ?c (create$ ?h ?g)))) => (println ?h ?g ?c))(assert (n 1) (n 2) (next 2) (next 3) (column 1) (column 7))(run)(retract 3)(agenda)(run)
(watch activations)(defrule l ?f <- (x ?v) (not (x ?w&:(< ?w ?v))) => (retract ?f))(defrule d (y ?a ?b) (not (y ~?a ?c&:(> ?c ?b))) =>)(assert (x 3) (x 1) (x 2) (y 1 1) (y 2 5) (y 1 7))(run)(retract 5)(agenda)
(defrule f (forall (task ?t) (done ?t) (not (and (late ?t) (not (excused ?t))))) => (println all))(run)(assert (task 1) (task 2) (done 1))(assert (done 2))(run)(assert (late 2))(assert (excused 2))(run)(retract 1 5)(agenda)
(defrule a (p) => (bind ?y (+ 1 2)) (if (> ?y 2) then (assert (q ?y "z") (r)) else (while FALSE)) (halt))(defrule b (q ?y $?) => (div ?y 0))(watch rules)(assert (p))(run)(run)(exit 3)
END
    # Many ways.
    echo '(defrule a (p $?a $?b $?c) => (println ?a ?b ?c))(assert (p 1 2 3 4 5))(run)'
}

# Says why the run is wrong, and ends.
wrong() {
    echo "wrong: $1, where the growth $n is refused${REFUSE_ALL:+ with all after it}, in"
    cat "$place/script"
    exit 1
}

# Whether the transcript and the status were the same as with ample memory.
is_whole() {
    [ "$status" -eq "$whole_status" ] && cmp -s "$place/written" "$place/whole"
}

# Refuses each growth in turn in the run of a script, and counts them in n, and in had those that were had after all.
refused() {
    n=0
    had=0
    while true; do
        n=$((n + 1))
        rm -f "$place/refused"
        status=0
        LD_PRELOAD=$place/refusing.so REFUSE=$n REFUSED=$place/refused "$program" \
            <"$place/script" >"$place/written" 2>"$place/said" || status=$?
        if [ ! -e "$place/refused" ]; then
            is_whole || wrong 'another run, though nothing was refused'
            n=$((n - 1))
            return
        fi
        if is_whole; then
            had=$((had + 1))
            continue
        fi
        [ "$status" -eq 3 ] || wrong "status $status"
        [ "$(tail -n 1 "$place/said")" = "${program##*/}: out of memory" ] || wrong "it says $(cat "$place/said")"
        cmp -s -n "$(wc -c <"$place/written")" "$place/written" "$place/whole" || wrong 'no beginning of what it writes with ample memory'
    done
}

# Refuses each growth in turn in the runs of the scripts in the folder, and says how many there were.
refused_in_scripts() {
    count=0
    total=0
    asked_again=0
    while IFS= read -r script; do
        printf '%s\n' "$script" >"$place/script"
        whole_status=0
        "$program" <"$place/script" >"$place/whole" 2>"$place/said" || whole_status=$?
        unset REFUSE_ALL
        refused
        alone=$n
        again=$had
        export REFUSE_ALL=1
        refused
        count=$((count + 1))
        total=$((total + alone - again + n))
        asked_again=$((asked_again + again))
        echo "script $count: $alone growths refused alone, of which $again were had after all, and $n with all after"
    done <"$place/scripts"
    echo "${program##*/}, $count scripts: $total runs ended with status 3 and a beginning of what is written, and $asked_again went on"
}

scripts >"$place/scripts"
refused_in_scripts
unset REFUSE_ALL
rule_scripts >"$place/scripts"
refused_in_scripts
