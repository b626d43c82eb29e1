# no blank before the colon
L :
