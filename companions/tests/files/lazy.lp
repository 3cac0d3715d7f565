\ A lazy constraint.
Maximize
 obj: x + y
Subject To
 c: x <= 3
Lazy Constraints
 l: y <= 2
Bounds
 x <= 4
 y <= 4
Generals
 x y
End
