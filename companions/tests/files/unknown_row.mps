* A right side of a row that isn't there.
NAME
ROWS
 N obj
 G c
COLUMNS
 m 'MARKER' 'INTORG'
 x obj 1 c 1
RHS
 r c 1
RHS
 r nothing 1
ENDATA
