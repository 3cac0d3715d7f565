\ A quadratic term.
Maximize
 obj: x + y
Subject To
 q: x + [ x ^2 ] <= 3
Bounds
 x <= 4
 y <= 4
Generals
 x y
End
