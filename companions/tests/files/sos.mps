* A set of which one may be above 0.
NAME
ROWS
 N obj
 G c
COLUMNS
 m 'MARKER' 'INTORG'
 x obj 1 c 1
RHS
 r c 1
BOUNDS
 UP n x 5
SOS
 S1 n s1
ENDATA
