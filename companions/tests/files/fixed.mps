* Fixed MPS with spaces in its names.
NAME          SPACES
ROWS
 N  TOTAL CO
 G  THE NEED
COLUMNS
    MARK 1    'MARKER'                 'INTORG'
    SITE A    TOTAL CO           2.0   THE NEED           1.0
    SITE B    TOTAL CO           3.0   THE NEED           2.0
    MARK 2    'MARKER'                 'INTEND'
RHS
    RIGHT     THE NEED           3.0
BOUNDS
 UP LIMITS    SITE A             4.0
 UP LIMITS    SITE B             4.0
ENDATA
