\ An indicator constraint.
Maximize
 obj: x + y
Subject To
 c: x = 1 -> y <= 3
Bounds
 x <= 4
 y <= 4
Generals
 x y
End
