\ A constant in the objective.
Maximize
 2 x + 7.5
Subject To
 c: x <= 3
Bounds
 x <= 9
Generals
 x
End
