* A right side of the objective's row: minus the constant.
NAME
ROWS
 N obj
 G c
COLUMNS
 x obj 2 c 1
RHS
 r obj -5 c 3
BOUNDS
 UI n x 9
ENDATA
