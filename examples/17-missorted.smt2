; A width is an item, and "not" is of Bool.
(forall ((v1 Item)) (not (f35 v1)))
