; Dry boards on a running line: the width of each fits its saw, and boards of
; one log that are equally wide go to one saw.
(forall ((v1 Item))                         ; a board
  (let ((v2 (f34 v1))                       ; its saw
        (v3 (f35 v1))                       ; its width
        (v4 (f33 v1))                       ; its log
        (v5 (and (not f38) (f37 v1))))      ; the line runs, and it is dry
    (=> v5
        (and (f36 v3 v2)
             (forall ((v1 Item))            ; any board: v2 to v4 stay those of the first
               (let ((v5 (= (f35 v1) v3)))  ; it is as wide
                 (=> (and v5 (= (f33 v1) v4))
                     (= (f34 v1) v2))))))))
