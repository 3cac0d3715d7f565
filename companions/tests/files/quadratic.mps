* A quadratic objective.
NAME
ROWS
 N obj
 G c
COLUMNS
 m 'MARKER' 'INTORG'
 x obj 1 c 1
RHS
 r c 1
BOUNDS
 UP n x 5
QUADOBJ
 x x 1
ENDATA
