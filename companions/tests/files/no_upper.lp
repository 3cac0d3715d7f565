\ A variable without an upper bound.
Maximize
 x - y
Subject To
 c: x + y <= 3
Bounds
 x <= 3
Generals
 x y
End
