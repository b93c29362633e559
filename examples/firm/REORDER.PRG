* The parts of which fewer than so many are on hand.
PARAMETERS LEAST
?
? "To be ordered, fewer than", LTRIM(STR(LEAST))
SET FILTER TO ONHAND < LEAST
GO TOP
DO WHILE .NOT. EOF()
   ? "  " + TITLE, STR(ONHAND,4)
   SKIP
ENDDO
SET FILTER TO
RETURN
