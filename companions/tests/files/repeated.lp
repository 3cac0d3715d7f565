\ A variable twice in the objective and in a row.
Maximize
 x + y + x
Subject To
 c: x + y + x <= 5
Bounds
 x <= 4
 y <= 4
Generals
 x y
End
