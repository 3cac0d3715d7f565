\ Two relations that are no range.
Maximize
 obj: x + y
Subject To
 c: 1 <= x + y >= 2
Bounds
 x <= 4
 y <= 4
Generals
 x y
End
