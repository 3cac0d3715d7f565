* Free MPS with names of sets, a sense on its own line, a free row, integer marks and comments.
NAME test
OBJSENSE
 MAX
ROWS
 N cost
 N other
 L limit
 G least
 E even
COLUMNS
 m1 'MARKER' 'INTORG'
 x cost 1.5 limit 1 $ a comment
 x other 2 least 1
 y cost 2 limit 1
 y even -1
 z cost 1 even 1
 m2 'MARKER' 'INTEND'
RHS
 rhs limit 4 least 1
BOUNDS
 UP bnd x 4
 LO bnd y -1
 UP bnd y 2
 UP bnd z 3
ENDATA
what stands here is passed over
