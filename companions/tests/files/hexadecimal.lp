\ 0x10 is 0 times x10, and 2x is 2 times x.
Maximize
 0x10 + 2x
Subject To
 c: x10 + x <= 5
Bounds
 x10 <= 2
 x <= 4
Generals
 x10 x
End
