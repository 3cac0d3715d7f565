\ A file that was cut off.
Maximize
 x
Subject To
 c: x <= 3
