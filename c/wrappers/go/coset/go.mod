module coset

go 1.18
