* Bounds of many kinds: BV, FX, FR and MI that a later one replaces.
NAME
ROWS
 N obj
 G c
COLUMNS
 m 'MARKER' 'INTORG'
 a obj 1 c 1
 b obj 1 c 1
 d obj 2 c 1
 e obj 3 c 1
 m 'MARKER' 'INTEND'
RHS
 r c 2
BOUNDS
 BV n a
 FX n b 2
 FR n d
 LO n d -2
 UP n d 2
 MI n e
 LO n e -1
 UP n e 4
ENDATA
