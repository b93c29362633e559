* The price list, by part number.
?
? "Prices of", CDOW(DATE()), DATE()
SCAN
   ? PART, TITLE, STR(PRICE,8,2)
ENDSCAN
RETURN
