* A second set of bounds.
NAME
ROWS
 N obj
 G c
COLUMNS
 m 'MARKER' 'INTORG'
 x obj 1 c 1
RHS
 r c 1
BOUNDS
 UP n x 5
 UP o x 6
ENDATA
