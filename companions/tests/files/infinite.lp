\ An infinite right side.
Maximize
 obj: x + y
Subject To
 c: x <= inf
Bounds
 x <= 4
 y <= 4
Generals
 x y
End
