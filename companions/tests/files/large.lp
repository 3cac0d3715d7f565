\ Coefficients and right sides are numbers, whatever their size.
Maximize
 x
Subject To
 c: 1e21 x <= 3e21
Bounds
 x <= 9
Generals
 x
End
