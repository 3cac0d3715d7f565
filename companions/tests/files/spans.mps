* Ranges of rows of each kind, and of an equation with each sign.
NAME
ROWS
 N obj
 L most
 G least
 E up
 E down
COLUMNS
 a obj -1 most 1
 b obj 1 least 1
 c obj -1 up 1
 d obj 1 down 1
RHS
 r most 5 least 2
 r up 3 down 4
RANGES
 g most 2 least 3
 g up 2 down -3
BOUNDS
 UI n a 9
 UI n b 9
 UI n c 9
 UI n d 9
ENDATA
