* Free MPS without names of sets, and a sense beside its heading.
NAME
OBJSENSE MAXIMIZE
ROWS
 N obj
 L c1
COLUMNS
 x obj 3 c1 2
 y obj 2 c1 1
RHS
 c1 5
BOUNDS
 UI x 3
 LI y 1
 UI y 2
ENDATA
