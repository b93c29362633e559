* Takes orders in a form until no customer is given. What became of each stands below the form.
* A quantity that can't be is asked for again, twice at most: at the end of the input each answer is empty.
@ 0,0 SAY "Order form"
LINE = 5
MORE = .T.
DO WHILE MORE
   WHO = SPACE(4)
   WHAT = SPACE(6)
   MANY = 0
   @ 1,0 SAY "Customer" GET WHO
   @ 2,0 SAY "Part    " GET WHAT
   @ 3,0 SAY "Quantity" GET MANY
   READ
   IF WHO = SPACE(4)
      MORE = .F.
   ELSE
      TRIES = 1
      DO WHILE TRIES < 3 .AND. (MANY < 1 .OR. MANY > 99999 .OR. MANY <> INT(MANY))
         @ 3,0 SAY "Quantity" GET MANY
         READ
         TRIES = TRIES + 1
      ENDDO
      DO BOOK WITH UPPER(WHO), UPPER(WHAT), MANY
      LINE = IIF(LINE < 24, LINE + 1, 5)
   ENDIF
ENDDO
CLEAR
RETURN

PROCEDURE BOOK
* One order: the customer and the part must be known.
PARAMETERS WHO, WHAT, MANY
SELECT CUST
SEEK WHO
KNOWN = FOUND()
SELECT STOCK
SEEK WHAT
DO CASE
   CASE .NOT. KNOWN
      @ LINE,0 SAY "No customer " + WHO
   CASE .NOT. FOUND()
      @ LINE,0 SAY "No part " + WHAT
   CASE MANY < 1 .OR. MANY > 99999 .OR. MANY <> INT(MANY)
      @ LINE,0 SAY "No quantity of " + TITLE
   OTHERWISE
      SELECT ORDERS
      APPEND BLANK
      REPLACE NUMBER WITH RECNO(), CODE WITH WHO, PART WITH WHAT, QTY WITH MANY, DAY WITH DATE(), DONE WITH .F.
      @ LINE,0 SAY "Order " + LTRIM(STR(NUMBER)) + ": " + STOCK->TITLE
      SELECT STOCK
ENDCASE
RETURN
