; A bracket is missing at the end.
(forall ((v1 Item))
  (=> (f37 v1)
      (not f38))
