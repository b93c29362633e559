* PAYMENT.PRG - payments as they come in                       1/86
SET TALK OFF
SELECT 2
USE DUES
SELECT 1
USE MEMBERS INDEX BYNAME
ACCEPT "Name (empty to end): " TO WHO
DO WHILE LEN(WHO) > 0
   SEEK WHO
   IF EOF()
      ? "No such member"
   ELSE
      MNO = NO
      ACCEPT "Paid by " + TRIM(NAME) + ": " TO SUM
      SELECT 2
      APPEND BLANK
      REPLACE NO WITH MNO, PAID WITH VAL(SUM), DAY WITH DATE()
      SELECT 1
   ENDIF
   ACCEPT "Name (empty to end): " TO WHO
ENDDO
CLOSE DATABASES
