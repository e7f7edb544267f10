; A dry board fits its saw, and every board that is as wide goes to that saw.
(forall ((v1 Item))                         ; a board
  (let ((v2 (f34 v1))                       ; its saw
        (v3 (f35 v1)))                      ; its width
    (=> (f37 v1)                            ; it is dry
        (and (f36 v3 v2)
             (forall ((v4 Item))            ; any board
               (let ((v5 (= (f35 v4) v3)))  ; it is as wide
                 (=> v5 (= (f34 v4) v2))))))))
