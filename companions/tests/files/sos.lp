\ A set of which one may be above 0.
Maximize
 obj: x + y
Subject To
 c: x <= 3
Bounds
 x <= 4
 y <= 4
Generals
 x y
SOS1
 s1: x:1 y:2
End
