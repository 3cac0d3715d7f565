\ Bounds that are said twice: the later counts. From 1e20 on they are infinite.
Minimize
 x + y
Subject To
 c: x + y >= -7
Bounds
 x <= 1e20
 x <= 4
 -9 <= x
 x >= -3
 y <= 2
 y >= -1e30
 y >= -2
Generals
 x y
End
