module rumpadol

go 1.19
