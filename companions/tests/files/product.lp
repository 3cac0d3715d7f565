\ A product.
Maximize
 obj: x + y
Subject To
 q: x * y <= 3
Bounds
 x <= 4
 y <= 4
Generals
 x y
End
