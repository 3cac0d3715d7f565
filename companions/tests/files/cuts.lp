\ A user cut.
Maximize
 obj: x + y
Subject To
 c: x <= 3
User Cuts
 k: y <= 2
Bounds
 x <= 4
 y <= 4
Generals
 x y
End
