"""Makes a folder of tables of several code pages, and of command files that name indexes, in the current folder."""

import files


def write(name, content):
    with open(name, "wb") as it:
        it.write(content)


FIELDS = [("NAME", "C", 8, 0), ("CITY", "C", 8, 0), ("AGE", "N", 3, 0)]
# each table has another record, and the byte of its header that names a code page
for name, mark in (("CUST", 2), ("DUES", 0), ("FOREIGN", 0xc9), ("ODD", 0x7b), ("PEOPLE", 1)):
    table = files.table(FIELDS, [b" " + name.ljust(8).encode() + b"Bergen   41"])
    write(f"{name}.DBF", table[:29] + bytes([mark]) + table[30:])
write("TOWNS.DBF", files.texts("TOWN", 4, ["Oslo"]))
write("READY.NDX", files.index("TOWN", 4, [(1, b"Oslo")]))

# the file SETUP.PRG: keys, names, tables, comments, lines that continue, and the byte that ends a file
write("SETUP.PRG", b"""USE CUST
INDEX ON NAME TO CUSTNO
  inde on  upper( name ) + ;
\tcity TO CNAME && in capitals
INDEX ON STR(AGE,3)+NAME TO BYAGE
INDEX ON STR(AGE,4)+NAME TO BYAGE
INDEX ON NAME TO CUSTOMERS
INDEX ON\tNAME-CITY TO MINUS && \x1b[2J\xe9
INDEX ON NAME CITY TO BOTH
INDEX ON NAME+NAME+NAME+NAME+NAME+NAME+NAME+NAME+NAME TO NINE
INDEX ON CITY TO CAF\xe9
INDEX ON CITY TO CAFE
USE
INDEX ON NAME TO LOST
USE ODD
SELECT 2
INDEX ON NAME TO LOST2
SELECT PEOPLE
INDEX ON NAME TO PN UNIQUE
INDEX ON CITY TO PN
INDEX ON CITY TO PN
USE NOWHERE
INDEX ON X TO NW
* INDEX ON CITY TO COMMENT
NOTE INDEX ON CITY TO COMMENT
? "INDEX ON CITY TO COMMENT"
INDEX ON CITY
INDEX CITY TO COMMENT
\x1aINDEX ON CITY TO BEHIND
""")
# the file main.prg: it isn't compiled; indexes that are opened, blocks, macros and a drive
write("main.prg", b"""USE TOWNS INDEX READY
INDEX ON TOWN TO READY
INDEX ON TOWN + TOWN TO READY
USE CUST ALIAS C INDEX CUSTNO, OTHER
SET INDEX TO THIRD
SET INDEX TO THIRD, OTHER
USE CUST INDEX OTHER
IF .NOT. FILE("X.NDX")
  INDEX ON NAME TO CUSTNO
ENDIF
INDEX ON CITY TO AFTERIF
IF X
  USE PEOPLE
ELSE
  INDEX ON CITY TO INELSE
  USE CUST
ENDIF
INDEX ON CITY TO AFTER
USE PEOPLE
DO CASE
  CASE X
    INDEX ON CITY TO INCASE
    SELECT CUST
  CASE Y
    INDEX ON CITY TO INCASE2
ENDCASE
USE &T INDEX &I
INDEX ON &K TO MAC
USE CUST
INDEX ON &K TO MAC2
USE B:CUST
INDEX ON NAME TO DRIVE
USE CUST
PROCEDURE P
INDEX ON NAME TO INPROC
USE CUST
CLOSE DATABASES
INDEX ON NAME TO CLOSED
DO WHILE .T.
  USE CUST
  INDEX ON CITY+NAME TO LOOPED
""")
write("LONG.PRG", b"USE CUST\nINDEX ON NAME TO TOOLONG" + b" " * 1001 + b"\nINDEX ON NAME TO BEHINDIT\n"
      b"USE PEOPLE INDEX N1,N2,N3,N4,N5,N6,N7,N8\n")
