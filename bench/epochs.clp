; The rules of the README's example for CLIPS, and its first epoch decided again and again. What is accepted goes by rising
; number, as salience: A4 only if A3 was not kept.
(defrule rule-1 (event 1) (not (event 2)) (reading 0 ?v&:(> ?v 40)) => (assert (proposed 3)))
(defrule rule-2 (event 3) => (assert (proposed 4)))
(defrule accept-3 (declare (salience -3)) (proposed 3) => (assert (accepted 3)))
(defrule accept-4 (declare (salience -4)) (proposed 4) (not (accepted 3)) => (assert (accepted 4)))
(deffunction epochs (?n)
  (bind ?kept 0)
  (loop-for-count ?n
    (assert (event 1)) (assert (event 3)) (assert (reading 0 41))
    (run)
    (do-for-all-facts ((?f accepted)) TRUE (bind ?kept (+ ?kept 1)))
    (retract *))
  (printout t ?kept crlf))
(reset)
(epochs 200000)
(exit)
