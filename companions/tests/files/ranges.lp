\ Rows with an end on each side.
Maximize
 x + 2 y
Subject To
 band: 2 <= x + y <= 6.5
 back: 8 >= 2 x + y >= 1
Bounds
 x <= 4
 y <= 4
Generals
 x y
End
