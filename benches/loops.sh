#!/bin/sh
# Measures expressions and loops: loops of a million turns against CLIPS 6.30 on the same script, which runs it by its option
# `-f2`; the peak memory of a loop that prints a million lines against one that prints one; and whether expressions nested as
# deep as they may be are carried out on a small stack.
# Run it from anywhere, with python3 and GNU time as /usr/bin/time, and with CLIPS as `clips` (Debian's package of that name);
# where it isn't installed, the lines that need it are left out:
#
#     benches/loops.sh
#
# It proves and builds the program first, and ends with status 1 where a ratio is over what is wanted. No test depends on it.
set -eu

. "$(dirname "$0")/built.sh"

missed=0

# Says how the processor time of a loop compares with CLIPS.
against_clips() {
    { cat "$place/loop" && echo '(exit)'; } >"$place/batch"
    cp "$place/loop" "$place/script"
    here=$(least_of_five "$program")
    : >"$place/script"
    there=$(least_of_five clips -f2 "$place/batch")
    echo "$here $there" | awk -v what="$1" '{
        printf "%-60s time %.2f of CLIPS (wanted: at most 0.8; %s s to %s s)\n", what ":", $1 / $3, $1, $3
        exit $1 > 0.8 * $3
    }' || missed=1
}

if command -v clips >/dev/null; then
    cat >"$place/loop" <<'END'
(defglobal ?*i* = 0)
(while (< ?*i* 1000000) do (bind ?*i* (+ ?*i* 1)))
(printout t ?*i* crlf)
END
    against_clips 'a million turns that count'
    cat >"$place/loop" <<'END'
(defglobal ?*n* = 0 ?*i* = 0)
(while (< ?*i* 1000000) do
   (bind ?*i* (+ ?*i* 1))
   (if (= (mod ?*i* 3) 0) then (bind ?*n* (+ ?*n* (* ?*i* 2)))))
(printout t ?*n* crlf)
END
    against_clips 'a million turns of arithmetic with an if'
else
    echo 'loops, to CLIPS: left out, as there is no program clips'
fi

# The peak memory in kB of a loop that prints so many lines.
printing() {
    cat >"$place/script" <<END
(bind ?i 0)
(while (< ?i $1) do (bind ?i (+ ?i 1)) (println "line " ?i " of a long list"))
END
    least_of_five "$program" | cut -d ' ' -f 2
}

echo "$(printing 1000000) $(printing 1)" | awk '{
    printf "a million printed lines: peak memory %.3f of that for one (wanted: at most 1.02; %s kB to %s kB)\n", $1 / $2, $1, $2
    exit $1 > 1.02 * $2
}' || missed=1

# A call nested 199 deep, a thousand times, on a stack of 512 kB.
python3 -c 'print(("(+ 1 " * 199 + "1" + ")" * 199 + "\n") * 1000)' >"$place/script"
if (ulimit -s 512 && "$program" <"$place/script" >"$place/transcript") && [ "$(sort -u "$place/transcript")" = 200 ]; then
    echo 'a thousand calls nested 199 deep: carried out on a stack of 512 kB'
else
    echo 'calls nested 199 deep: not carried out on a stack of 512 kB'
    missed=1
fi
exit "$missed"
