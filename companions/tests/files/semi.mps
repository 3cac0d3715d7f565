* A semi-continuous column.
NAME
ROWS
 N obj
 G c
COLUMNS
 m 'MARKER' 'INTORG'
 x obj 1 c 1
RHS
 r c 1
BOUNDS
 SC n x 5
ENDATA
