module lifecrib.example/token

go 1.19
