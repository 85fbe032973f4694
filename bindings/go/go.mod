module likes

go 1.19
