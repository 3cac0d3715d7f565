\ A binary variable beside a bound that is neither 0 nor 1.
Maximize
 x
Subject To
 c: x <= 3
Bounds
 x <= 2
Binaries
 x
End
