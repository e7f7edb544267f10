; "and" has one argument; the lines start with tabs.
(forall ((v1 Item))
	(and (f37 v1)	)
	(not f38))
