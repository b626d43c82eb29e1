# no comma at the end
halt $zero, $zero, $zero, $zero, 0, 0,
