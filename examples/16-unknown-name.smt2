; f63 is not declared: f36 was meant.
(forall ((v1 Item) (v2 Item))
  (=> (f63 (f35 v1) v2) (= (f34 v1) v2)))
