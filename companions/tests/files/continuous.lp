\ A continuous variable.
Maximize
 x + 0.5 y
Subject To
 c: x + y <= 3.5
Bounds
 x <= 2
 y <= 2.25
Generals
 x
End
