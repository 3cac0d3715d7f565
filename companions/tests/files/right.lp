\ A variable on the right.
Maximize
 obj: x + y
Subject To
 c: x <= y
Bounds
 x <= 4
 y <= 4
Generals
 x y
End
