\ Names that the format can't read, and one that is there already.
Maximize
 obj: x(1,2) + 2 x(1_2) + 3 ~r_1 + 4 max + 5 a/b
Subject To
 row,1: x(1,2) + x(1_2) + ~r_1 + max + a/b <= 3
Bounds
 x(1,2) <= 1
 x(1_2) <= 1
 ~r_1 <= 1
 max <= 1
 a/b <= 1
Generals
 x(1,2) x(1_2) ~r_1
 max a/b
End
