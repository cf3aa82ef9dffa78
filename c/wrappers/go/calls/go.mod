module calls

go 1.18

require coset v0.0.0

replace coset => ../coset
