\ A semi-continuous variable.
Maximize
 obj: x + y
Subject To
 c: x <= 3
Bounds
 x <= 4
 y <= 4
Generals
 x y
Semi-continuous
 y
End
