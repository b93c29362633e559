* Once a year: orders that are done go, and those that are kept are listed.
USE ORDERS INDEX ORDKEY
SCAN FOR DONE
   DELETE
ENDSCAN
PACK
? "Orders kept:", STR(RECCOUNT(),4)
SCAN
   ? STR(NUMBER,4), CODE, PART, STR(QTY,4), DAY
ENDSCAN
