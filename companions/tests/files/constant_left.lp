\ A constant on the left.
Maximize
 obj: x + y
Subject To
 c: x + y + 3 <= 8
Bounds
 x <= 4
 y <= 4
Generals
 x y
End
