\ An upper bound below 0, and no lower one.
Maximize
 x
Subject To
 c: x <= 3
Bounds
 x <= -1
End
