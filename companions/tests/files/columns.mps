* Fixed MPS that free readers take as well, without the name of a set.
NAME          COLUMNS
ROWS
 N  COST
 L  LIM1
COLUMNS
    MARKER                 'MARKER'                 'INTORG'
    X         COST              -1.0   LIM1               2.0
    MARKER                 'MARKER'                 'INTEND'
RHS
              LIM1               7.0
BOUNDS
 UP           X                  9.0
ENDATA
