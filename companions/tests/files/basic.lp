\ A plain file: the words of every usual section.
Maximize
 profit: 3 x + 2 y - z
Subject To
 one: x + y <= 4
 two: x - y >= -2
 three: z + x = 3
Bounds
 0 <= x <= 3
 y <= 5
 z <= 3
Generals
 x y z
End
