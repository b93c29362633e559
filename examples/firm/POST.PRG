* Takes what was ordered out of the stock, the oldest order first. What isn't on hand waits.
COUNT = 0
SELECT ORDERS
SET ORDER TO 0
SCAN FOR .NOT. DONE
   SELECT STOCK
   SEEK ORDERS->PART
   IF ORDERS->QTY > ONHAND
      ? "Order", STR(ORDERS->NUMBER,4), "waits for", TITLE
      SELECT ORDERS
   ELSE
      REPLACE ONHAND WITH ONHAND - ORDERS->QTY
      SELECT ORDERS
      REPLACE DONE WITH .T.
      COUNT = COUNT + 1
   ENDIF
ENDSCAN
SET ORDER TO 1
SELECT STOCK
? "Orders posted:", STR(COUNT,4)
RETURN
