\ A binary variable beside a bound that is 0 or 1.
Minimize
 3 x + y
Subject To
 c: x + y >= 1
Bounds
 x >= 1
Binaries
 x y
End
